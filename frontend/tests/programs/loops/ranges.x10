// Ranges from below zero, of one number and of none.
// $ run
// 0: -2
// 0: -1
// 0: 0
// 0: 1
// 0: 7
// 0: 9223372036854775806
// 0: 9223372036854775807
// 0: -9223372036854775808
// 0: -9223372036854775807
def main() {
  for (i in -2..1) Console.OUT.println(i);
  for (i in 7..7) Console.OUT.println(i);
  for (i in 1..0) Console.OUT.println(i);
  for (i in 9223372036854775806..9223372036854775807) Console.OUT.println(i);
  for (i in -9223372036854775808..-9223372036854775807) Console.OUT.println(i);
}
