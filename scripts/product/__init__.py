"""The built program over what is stored, worked by hand and made; which program and library are taken."""
