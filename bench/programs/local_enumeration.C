int main(){enum E{P,Q};E e=Q;return e;}
