// The whole program in one class, with the main of X10.
// $ run
// 0: hello
// 0: again
import x10.io.Console;
public class Hello {
  public static def main(args: Rail[String]): void {
    Console.OUT.println("hello");
    greet("again");
  }
  private static def greet(s: String): void { Console.OUT.println(s); }
}
