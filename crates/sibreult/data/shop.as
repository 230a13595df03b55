int gold = 100;
int buy(int price) { gold -= price; return gold; }
