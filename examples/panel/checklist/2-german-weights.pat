# Which fields of the German panel are typed in kilograms?

node field  field
node weight unit   value = 1
node format format
node market locale value = 2

edge field  -> weight
edge field  -> format
edge market -> format
