// A program is one file.
// $ refused 5:1
// `import` isn't part of the subset
// A program is one file; it may import x10.io.Console.
import x10.util.Random;
def main() {}
