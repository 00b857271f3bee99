# Which two percentages are typed on one screen? Only their captions tell them apart. Each pair comes both ways round.

node one        field
node other      field
node percentage unit value = 3
node screen     screen
node format     format
node market     locale

edge one    -> percentage
edge other  -> percentage
edge screen -> one
edge screen -> other
edge one    -> format
edge other  -> format
edge market -> format
