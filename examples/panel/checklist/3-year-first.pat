# In which markets is a date typed with the year first, and into which fields?

node market locale
node order  format value = 2
node field  field
node screen screen

edge market -> order
edge field  -> order
edge screen -> field
