// A static is a constant.
// $ refused 5:24
// `n` is static, and no constant
// Write `static val NAME = VALUE;`; what changes is the field of an object.
class Box { static var n: Int = 0; }
def main() {}
