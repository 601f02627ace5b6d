// A class has 16 fields at most.
// $ refused 6:113
// `Row` has 17 fields
// A class has at most 16: put some into an object of another class.
class Row { var a: Int; var b: Int; var c: Int; var d: Int; var e: Int; var f: Int; var g: Int; var h: Int;
            var i: Int; var j: Int; var k: Int; var l: Int; var m: Int; var n: Int; var o: Int; var p: Int; var q: Int; }
def main() {}
