# Which captions in the market's own language are longer than 16, and still fit a second line of 16?

node market  locale
node format  format
node field   field
node caption caption value > 16 and value <= 32

edge market  -> format
edge market  -> caption
edge caption -> field
edge field   -> format
