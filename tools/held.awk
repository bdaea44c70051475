# The names in a document's quotes, each held against the repository: 'ok: ..' or 'bad: ..' for each.
# A file exists at the top or in a crate. In the sheet a theorem is in a file that its row or the text above names, in MEANING a definition is
# in the module before it, in FORMS a function is in a crate that its row names or in the archive's; other names are defined somewhere.
function base(path) { sub(/.*\//, "", path); return path }
function crateOf(path) { if (path !~ /^crates\//) return ""; sub(/^crates\//, "", path); sub(/\/.*/, "", path); return path }

function isFile(token,  f) {
  sub(/\/$/, "", token)
  if (token in file) return 1
  for (f in file) if (length(f) > length(token) && substr(f, length(f) - length(token)) == "/" token) return 1
  return 0
}

# is the name defined in a file of the set `where`: ' path path ', or anywhere if that is empty
function defined(name, where,  f, list, n, i) {
  if (!(name in places)) return 0
  if (where ~ /^ *$/) return 1
  n = split(places[name], list, " ")
  for (i = 1; i <= n; i++) if (index(where, " " list[i] " ") || index(where, " " crateOf(list[i]) " ")) return 1
  return 0
}

# a name of several words that no code has is a definition's or a theorem's: it stands where the row says
function is_lemma(name) { return name ~ /_/ && places[name] !~ /\.rt( |$)/ }

# the file of a basename in a crate, among its definitions or its proofs
function in_crate(c, b) {
  if (("crates/" c "/specs/" b) in file) return " crates/" c "/specs/" b
  if (("crates/" c "/proofs/" b) in file) return " crates/" c "/proofs/" b
  return ""
}

# the files of a basename, in the layers that the documents speak of
function specs(b,  out, i, n, list) {
  n = split("meaning papers laws_steps laws_tables laws_demands certificate", list, " ")
  for (i = 1; i <= n; i++) out = out in_crate(list[i], b)
  return out
}

function report(good, what) { print (good ? "ok: " : "bad: ") FILENAME ":" FNR ": " what }

BEGIN {
  while ((getline line < files) > 0) file[line] = 1
  while ((getline line < names) > 0) { split(line, w, " "); places[w[2]] = places[w[2]] " " w[1]; }
  for (f in file) if (f ~ /^crates\/[a-z_]+$/) crate[base(f)] = 1
}

FNR == 1 { section = ""; before = ""; skip = 0 }
/^#/ { before = ""; skip = /bundle holds|Hashes|^# Release sheet|not certified/ }
skip || /^\|---/ { next }

{
  n = split($0, part, "`")
  where = ""
  meaning = FILENAME ~ /MEANING/
  forms = FILENAME ~ /FORMS/
  # first what the line says of places
  for (i = 2; i <= n; i += 2) {
    if (forms && part[i] in crate) where = where " " part[i]
    if (!forms && part[i] ~ /\.antt$/) where = where (part[i] ~ /\// ? " " part[i] : specs(part[i]))
  }
  if (!/^\|/) section = section where
  else if (/\| same \|/) where = where before
  if (/^\|/) before = where
  if (!forms) where = where section
  else where = /^\|/ && where != "" ? where " gamulisyan" : ""
  where = where " "
  module = ""
  for (i = 1; i <= n; i++) {
    if (i % 2) {
      if (meaning) {
        k = split(part[i], w, /[^A-Za-z]+/)
        for (j = 1; j <= k; j++) {
          if (j > 1 && w[j - 1] == "papers" && in_crate("papers", w[j] ".antt") != "") module = in_crate("papers", w[j] ".antt") " "
          else if (j > 1 && w[j - 1] == "laws" && specs(w[j] ".antt") != "") module = specs(w[j] ".antt") " "
          else if (in_crate("meaning", w[j] ".antt") != "") module = in_crate("meaning", w[j] ".antt") " "
        }
      }
      continue
    }
    token = part[i]
    if (token in crate) report(1, token)
    else if (token ~ /^[A-Za-z_.+\/-]*(\/|\.(antt|rt|c|h|rs|edit|md))[A-Za-z_.+\/-]*$/) report(isFile(token), "no file " token)
    else if (token ~ /^[A-Za-z_]+::[a-z_]+$/) { split(token, w, "::"); if (w[1] in crate) report(defined(w[2], " " w[1] " "), "no function " token) }
    else if (token ~ /^[A-Za-z][A-Za-z0-9_-]*$/) {
      if (meaning) report(defined(token, module), token " is not in" module)
      else if (token !~ /^(requires|else|match|list|check|release)$/) report(defined(token, is_lemma(token) || forms ? where : ""), token " is not in" where)
    }
  }
}
