// Feeds answers to the reader of go-imap (Debian's golang-github-emersion-go-imap-dev), and prints what it understood.
// Standard input: a case a line, fields with TAB between them in hexadecimal: a name, a tag, the bytes. Output: a line a case, JSON.
package main

import (
	"bufio"
	"bytes"
	"encoding/hex"
	"encoding/json"
	"fmt"
	"io"
	"io/ioutil"
	"os"
	"strings"

	"github.com/emersion/go-imap"
)

func plain(field interface{}) interface{} {
	switch f := field.(type) {
	case []interface{}:
		list := []interface{}{}
		for _, item := range f {
			list = append(list, plain(item))
		}
		return list
	case imap.Literal:
		octets, _ := ioutil.ReadAll(f)
		return map[string]string{"literal": string(octets)}
	default:
		return fmt.Sprint(f)
	}
}

func told(resp imap.Resp) interface{} {
	switch r := resp.(type) {
	case *imap.ContinuationReq:
		return []interface{}{"go on", r.Info}
	case *imap.StatusResp:
		return []interface{}{"status", r.Tag, string(r.Type), string(r.Code), plain(r.Arguments), r.Info}
	case *imap.DataResp:
		return []interface{}{"data", r.Tag, plain(r.Fields)}
	}
	return nil
}

func main() {
	lines := bufio.NewScanner(os.Stdin)
	lines.Buffer(nil, 1<<26)
	for lines.Scan() {
		fields := strings.Split(lines.Text(), "\t")
		name, _ := hex.DecodeString(fields[0])
		text, _ := hex.DecodeString(fields[2])
		reader := imap.NewReader(bufio.NewReader(bytes.NewReader(text)))
		responses := []interface{}{}
		failure := ""
		for {
			resp, err := imap.ReadResp(reader)
			if err == io.EOF {
				break
			}
			if err != nil {
				failure = err.Error()
				break
			}
			responses = append(responses, told(resp))
		}
		out, _ := json.Marshal(map[string]interface{}{"name": string(name), "told": responses, "error": failure})
		fmt.Println(string(out))
	}
}
