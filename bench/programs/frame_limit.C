int main(){char b[65536];return 7;}
