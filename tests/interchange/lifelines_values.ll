/* What LifeLines keeps of a GEDCOM file that it has read: each record of the database as GEDCOM lines, in the file
   values.ged. llexec -x lifelines_values.ll DATABASE */
proc main() {
  newfile("values.ged", 0)
  forindi(person, count) { call lines(root(person)) }
  forfam(family, count) { call lines(root(family)) }
  forsour(source, count) { call lines(source) }
  foreven(event, count) { call lines(event) }
  forothr(other, count) { call lines(other) }
}

proc lines(record) {
  traverse(record, node, level) {
    d(level)
    if (xref(node)) { " " xref(node) }
    " " tag(node)
    if (value(node)) { " " value(node) }
    nl()
  }
}
