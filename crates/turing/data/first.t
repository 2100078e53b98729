put 1 + 2 * 3
