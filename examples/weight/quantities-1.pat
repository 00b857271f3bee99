# Which quantities are worked out from a field of the German weighing screen (page 11), and in which reports do they stand?

node market   locale   value = 2
node sign     format   value = 44
node field    field
node screen   screen   value = 11
node quantity quantity
node report   report

edge market   -> sign
edge field    -> sign
edge screen   -> field
edge field    -> quantity
edge quantity -> report
