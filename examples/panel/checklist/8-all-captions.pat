# All captions? Refused with 7: no constraint says how many there are at most, and none leads to them from nothing.

node caption caption
