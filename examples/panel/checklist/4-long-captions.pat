# Which captions in a foreign language are longer than the 16 characters that a field has room for?
# Two pattern nodes are never on one graph node, so the language is never the market's own: 5 looks at that.

node market   locale
node format   format
node field    field
node language locale
node caption  caption value > 16

edge market   -> format
edge field    -> format
edge language -> caption
edge caption  -> field
