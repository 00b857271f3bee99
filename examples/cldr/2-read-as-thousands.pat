# In which territories is the decimal comma of one locale the grouping comma of another? 2,5 is read as 25 there.

node territory territory
node one       locale
node other     locale
node comma     decimal  value = 44
node thousands grouping value = 44

edge one   -> territory
edge other -> territory
edge one   -> comma
edge other -> thousands
