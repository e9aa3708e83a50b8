int a[1];
int main() { a[0] = 2 }
