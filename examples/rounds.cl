kernel void rounds(global uint*o){uint i=get_global_id(0);uint x=i;uint n=0;while(x>1u){if(x%2u)x=3u*x+1u;else x=x/2u;n++;}o[i]=n;}
