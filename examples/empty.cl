kernel void f(){}
