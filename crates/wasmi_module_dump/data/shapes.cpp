// Mangled names, both exported and imported.
namespace geometry {
struct Point {
    int x, y;
};

template <typename T> T larger(T a, T b) { return a < b ? b : a; }

class Shape {
  public:
    virtual ~Shape() {}
    virtual int area() const = 0;
};

class Square : public Shape {
  public:
    explicit Square(int side) : side(side) {}
    int area() const override;

  private:
    int side;
};

int Square::area() const { return side * side; }

int distance(const Point &a, const Point &b);

int from_origin(const Point &p) { return distance(p, Point{0, 0}); }

template int larger<int>(int, int);
template double larger<double>(double, double);
} // namespace geometry

void operator delete(void *) noexcept {}
void operator delete(void *, unsigned long) noexcept {}
