"""What Gramps, LifeLines and Gedcom.pm keep of GEDCOM files: the programs, their values, and files to give them."""
