# The line that is the nearest to `given`, as ", did you mean 'WORD'?", where so few letters are other ones that it may be meant.

# How many letters are to be put, taken away, exchanged with another one or with the next one.
function distance(a, b,    i, j, m, n, d, best, cost) {
    m = length(a); n = length(b)
    for (i = 0; i <= m; i++) d[i, 0] = i
    for (j = 0; j <= n; j++) d[0, j] = j
    for (i = 1; i <= m; i++) for (j = 1; j <= n; j++) {
        cost = substr(a, i, 1) != substr(b, j, 1)
        best = d[i - 1, j - 1] + cost
        if (d[i - 1, j] + 1 < best) best = d[i - 1, j] + 1
        if (d[i, j - 1] + 1 < best) best = d[i, j - 1] + 1
        if (i > 1 && j > 1 && substr(a, i, 1) == substr(b, j - 1, 1) && substr(a, i - 1, 1) == substr(b, j, 1) && d[i - 2, j - 2] + 1 < best) best = d[i - 2, j - 2] + 1
        d[i, j] = best
    }
    return d[m, n]
}
BEGIN { word = tolower(given); sub(/=.*/, "", word); sub(/^-*/, "", word); least = 99 }
{
    bare = $1; sub(/^-*/, "", bare)
    far = distance(word, bare)
    if (index(bare, word) == 1 && length(word) > 2 || index(word, bare) == 1 && length(bare) > 2) far = 1
    if (far < least) { least = far; found = $1 }
}
END { if (least <= 1 + int(length(word) / 4) && word != "") print "; did you mean '" found "'?" }
