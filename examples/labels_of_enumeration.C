enum E{P,Q=5,R};int main(){E e=R;switch(e){case Q:return 1;case R:return 2;}return 3;}
