// Texts are joined, measured in bytes and printed as they are.
// $ run
// 0: 5
// 0: grüner Tee
// 0: 12
// 0: 
// 0: 
// 0: a "quote", a \ and a tab	.
def main() {
  var s: String = "grün";
  Console.OUT.println(s.length());
  s = s + "er";
  s += " Tee";
  Console.OUT.println(s);
  Console.OUT.println((s + "!").length());
  Console.OUT.println("");
  Console.OUT.println();
  Console.OUT.println("a \"quote\", a \\ and a tab\t.");
}
