static int again __attribute__((used)) = 2;
