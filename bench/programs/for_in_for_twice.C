int main(){int n=0;for(int i=0;i<2;i++)for(int j=0;j<2;j++)n++;for(i=0;i<2;i++)for(int j=0;j<2;j++)n++;return n;}
