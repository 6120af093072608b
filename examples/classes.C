// a tree of the whole grammar; classes are not translated yet
class shape {
public:
  virtual int area() = 0;
  int twice() { return 2 * area(); }
};
class square : public shape {
  int side;
public:
  square(int s) : side(s) {}
  int area() { return side * side; }
};
int main() {
  square s(3);
  return s.twice();
}
