kernel void demo(global uint*a,uint n,uint c){uint i=get_global_id(0);if(i<n){uint x=a[i];uint k=0;while(k<i%7u){x=x*c+(x>>5)+i;k++;}a[i]=x;}}
