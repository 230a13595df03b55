class Slot { int count; }
array<Slot@> slots;
void clean(int i) {
	Slot@ s = slots[i];
	if (s.count == 0) slots.removeAt(i);
}
