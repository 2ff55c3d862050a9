kernel void add(global uint*a,global uint*b,global uint*c,uint n){uint i=get_global_id(0);if(i<n)c[i]=a[i]+b[i];}
