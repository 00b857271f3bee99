# Which fields take a decimal comma, and where do they stand? This is the list of the comma rule.

node field  field  value > 0
node sign   format value = 44
node market locale
node screen screen

edge field  -> sign
edge market -> sign
edge screen -> field
