int main(){char b[8200];return 7;}
