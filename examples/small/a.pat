# Pattern A: the fields that use a format of locale 2, with the screens they stand on.

node place  locale value = 2
node format format
node field  field
node screen screen

edge place  -> format
edge field  -> format
edge screen -> field
