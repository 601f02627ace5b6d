// The primes below 100: byte n of the rail is 1 where n is a product.
// $ run
// 0: 2
// 0: 3
// 0: 5
// 0: 7
// 0: 11
// 0: 13
// 0: 17
// 0: 19
// 0: 23
// 0: 29
// 0: 31
// 0: 37
// 0: 41
// 0: 43
// 0: 47
// 0: 53
// 0: 59
// 0: 61
// 0: 67
// 0: 71
// 0: 73
// 0: 79
// 0: 83
// 0: 89
// 0: 97
def main() {
  val isProduct = new Rail[Byte](100);
  for (n in 2..99) {
    if (isProduct(n) != 0) continue;
    Console.OUT.println(n);
    var k: Int = n * n;
    while (k < 100) @bound(49) {
      isProduct(k) = 1;
      k += n;
    }
  }
}
