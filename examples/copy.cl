kernel void copy(global uint*a,global uint*b){uint i=get_global_id(0);b[i]=a[i];}
