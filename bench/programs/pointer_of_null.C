int*p=(int*)0+1;int main(){return 0;}
