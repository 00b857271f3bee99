# In which territories does one locale write a decimal comma and another a decimal point?

node territory territory
node one       locale
node other     locale
node comma     decimal value = 44
node point     decimal value = 46

edge one   -> territory
edge other -> territory
edge one   -> comma
edge other -> point
