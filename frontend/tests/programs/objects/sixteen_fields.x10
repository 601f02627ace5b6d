// As many fields as there may be.
// $ run
// 0: 20
class Row { var a: Int; var b: Int; var c: Int; var d: Int; var e: Int; var f: Int; var g: Int; var h: Int;
            var i: Int; var j: Int; var k: Int; var l: Int; var m: Int; var n: Int; var o: Int; var p: Int; }
def main() {
  val r = new Row();
  r.p = 4;
  r.a = r.p + 1;
  Console.OUT.println(r.a * r.p + r.h);
}
