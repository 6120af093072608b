int main(){int n=0;switch(2){case 0:do{n=1;case 2:n=n+1;}while(n<2);}return n;}
