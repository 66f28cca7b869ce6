//go:build cgo && linux && (amd64 || arm64)

package zsched

import "strings"

// The numbers of faults of a text; those after number too have a place in it.
const (
	notUTF8   = 4
	noTerm    = 11
	badNumber = 13
	badWindow = 16
)

// shown is the number of letters of a text that a message has.
const shown = 80

// The words of a schedule's text, in the order of their description.
var words = strings.Fields("forever recurs spaced fixed exponential fibonacci identity elapsed linear windowed " +
	"andThenEither whileInput whileOutput collectAll map resetWhen size merge as")

// linesOf returns the library's words of a fault with a hint, and for a wrong text the lines that show it.
func linesOf(said string, fault *Fault) string {
	if fault.Number != notUTF8 && fault.Number != KeepsList && (fault.Number < noTerm || fault.Number > badWindow) {
		return said
	}
	text, at := fault.Text, int(fault.At)
	if fault.Number == noTerm && at <= len(text) {
		said += hintOf(text, at)
	}
	from := least(at-shown/2, len(text)-shown)
	if from < 0 {
		from = 0
	}
	said += "\n" + printable(text[from:least(len(text), from+shown)])
	if fault.Number == notUTF8 || fault.Number == noTerm || fault.Number == badNumber {
		said += "\n" + strings.Repeat(" ", at-from) + "^"
	}
	return said
}

// hintOf returns what to write in place of what begins at a byte of a text, or nothing.
func hintOf(text string, at int) string {
	before, rest := text[:at], text[at:]
	for _, operator := range []string{"&&", "||", "andThenEither"} {
		if strings.HasPrefix(rest, operator) && strings.Count(before, "(") == strings.Count(before, ")") {
			return `: "` + operator + `" stands in parentheses: (A ` + operator + " B)"
		}
	}
	if rest == "" {
		return ": the text ends too early"
	}
	if rest[0] == '.' && len(rest) > 1 && at > 0 && isDigit(rest[1]) && isDigit(before[at-1]) {
		return ": whole milliseconds, without a point"
	}
	end := strings.IndexFunc(rest, func(it rune) bool { return (it < 'A' || it > 'Z') && (it < 'a' || it > 'z') })
	if end < 0 {
		end = len(rest)
	}
	if near := nearest(rest[:end]); near != "" {
		return `: did you mean "` + near + `"?`
	}
	return ""
}

// nearest returns the word that is 1 or 2 edits from another, the fewest and the first, or nothing.
func nearest(word string) (found string) {
	fewest := 3
	for _, it := range words {
		if edits := editsOf(word, it); word != "" && edits < fewest {
			fewest, found = edits, it
		}
	}
	if fewest == 0 {
		return ""
	}
	return found
}

// editsOf returns how many letters have to be put in, taken out or changed between two words.
func editsOf(one, other string) int {
	row := make([]int, len(other)+1)
	for i := range row {
		row[i] = i
	}
	for i := range one {
		left := row[0]
		row[0] = i + 1
		for j := range other {
			changed := left
			if one[i] != other[j] {
				changed++
			}
			left = row[j+1]
			row[j+1] = least(changed, least(row[j], left)+1)
		}
	}
	return row[len(other)]
}

// printable returns a text with a question mark for each byte that a terminal may not print.
func printable(text string) string {
	data := []byte(text)
	for i, it := range data {
		if it < ' ' || it > '~' {
			data[i] = '?'
		}
	}
	return string(data)
}

func isDigit(it byte) bool { return it >= '0' && it <= '9' }

func least(one, other int) int {
	if one < other {
		return one
	}
	return other
}
