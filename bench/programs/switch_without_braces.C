int main(){int n=5;switch(n)case 5:n=6;return n;}
