// A number isn't null.
// $ refused 5:27
// `n` is an Int, and this is null
// Give it an Int.
def main() { val n: Int = null; }
