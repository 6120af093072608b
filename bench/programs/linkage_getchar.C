extern int getchar();int main(){return getchar()+1;}
