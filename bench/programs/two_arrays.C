int a[2],b[2];int main(){return a<b;}
