// A program without main.
// $ refused 1:1
// there is no main
// Write `def main() { .. }`; a run begins there, at place 0.
def man() {}
