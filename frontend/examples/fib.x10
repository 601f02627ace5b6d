// Fibonacci's numbers by activities: only they recur. Each puts its number into an object.
// $ run
// 0: 55
class Box { var value: Int = 0; }
def fib(n: Int, to: Box) {
  if (n < 2) {
    to.value = n;
    return;
  }
  val a = new Box();
  val b = new Box();
  finish {
    async fib(n - 1, a);
    async fib(n - 2, b);
  }
  to.value = a.value + b.value;
}
def main() {
  val box = new Box();
  finish async fib(10, box);
  Console.OUT.println(box.value);
}
