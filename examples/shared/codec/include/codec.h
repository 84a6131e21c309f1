int decode(int level);
