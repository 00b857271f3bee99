# Which locales write a decimal comma, though the locale that they inherit from writes a point?

node heir   locale
node family family
node parent locale
node comma  decimal value = 44
node point  decimal value = 46

edge heir   -> family
edge family -> parent
edge heir   -> comma
edge parent -> point
