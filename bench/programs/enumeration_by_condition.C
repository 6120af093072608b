enum E{P,Q};int main(){E e=P;int n=1;e=n?P:Q;return e;}
