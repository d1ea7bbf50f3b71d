// What an engine's own reader makes of a text: readers ENGINE, where ENGINE is docker, podman, containerd or runc.
//
// Each line of standard input is a text in digits. The answer is a line of JSON: an error, or that there is no filter, or the filter as
// runc's SetupSeccomp makes it of the section that the engine's reader returns.
package main

import (
	"bufio"
	"bytes"
	"context"
	"encoding/hex"
	"encoding/json"
	"errors"
	"fmt"
	"os"

	containerd "github.com/containerd/containerd/contrib/seccomp"
	common "github.com/containers/common/pkg/seccomp"
	docker "github.com/docker/docker/profiles/seccomp"
	"github.com/opencontainers/runc/libcontainer/configs"
	"github.com/opencontainers/runc/libcontainer/specconv"
	specs "github.com/opencontainers/runtime-spec/specs-go"
)

// The capabilities that a container gets if nothing is said of them.
var capabilities = []string{"CAP_CHOWN", "CAP_DAC_OVERRIDE", "CAP_FOWNER", "CAP_FSETID", "CAP_KILL", "CAP_NET_BIND_SERVICE", "CAP_SETFCAP",
	"CAP_SETGID", "CAP_SETPCAP", "CAP_SETUID", "CAP_SYS_CHROOT"}
var ofDocker = append([]string{"CAP_AUDIT_WRITE", "CAP_MKNOD", "CAP_NET_RAW"}, capabilities...)

func container(bounding []string) *specs.Spec {
	return &specs.Spec{Process: &specs.Process{Capabilities: &specs.LinuxCapabilities{Bounding: bounding}}, Linux: &specs.Linux{}}
}

// The command line of docker compacts the file (cli/command/container/opts.go) and sends it as a string of JSON.
func sent(text []byte) (string, error) {
	compact := bytes.NewBuffer(nil)
	if err := json.Compact(compact, text); err != nil {
		return "", err
	}
	wire, err := json.Marshal(compact.String())
	if err != nil {
		return "", err
	}
	var got string
	return got, json.Unmarshal(wire, &got)
}

func ofBundle(text []byte) (*specs.LinuxSeccomp, error) {
	var bundle *specs.Spec
	if err := json.NewDecoder(bytes.NewReader(text)).Decode(&bundle); err != nil {
		return nil, err
	}
	if bundle == nil || bundle.Linux == nil {
		return nil, errors.New("no linux")
	}
	return bundle.Linux.Seccomp, nil
}

// containerd reads a file.
func ofFile(text []byte) (*specs.LinuxSeccomp, error) {
	file, err := os.CreateTemp("", "profile")
	if err != nil {
		return nil, err
	}
	defer os.Remove(file.Name())
	defer file.Close()
	if _, err := file.Write(text); err != nil {
		return nil, err
	}
	spec := container(capabilities)
	err = containerd.WithProfile(file.Name())(context.Background(), nil, nil, spec)
	return spec.Linux.Seccomp, err
}

// The section that an engine reads; a reader that fails by a nil pointer reads none.
func section(engine string, text []byte) (read *specs.LinuxSeccomp, err error) {
	defer func() {
		if fault := recover(); fault != nil {
			read, err = nil, fmt.Errorf("panic: %v", fault)
		}
	}()
	switch engine {
	case "docker":
		got, err := sent(text)
		if err != nil {
			return nil, err
		}
		return docker.LoadProfile(got, container(ofDocker))
	case "podman":
		return common.LoadProfile(string(text), container(capabilities))
	case "containerd":
		return ofFile(text)
	case "runc": // utils_linux.go and spec.go, loadSpec
		return ofBundle(text)
	}
	return nil, errors.New("no such engine")
}

type condition struct {
	Index uint   `json:"index"`
	Op    string `json:"op"`
	Value uint64 `json:"value"`
	Two   uint64 `json:"two"`
}

type entry struct {
	Name   string      `json:"name"`
	Action string      `json:"action"`
	Errno  *uint       `json:"errno"`
	Args   []condition `json:"args"`
}

type answer struct {
	Error   string   `json:"error,omitempty"`
	Off     bool     `json:"off,omitempty"`
	Default string   `json:"default,omitempty"`
	Errno   *uint    `json:"errno,omitempty"`
	Archs   []string `json:"archs"`
	Entries []entry  `json:"entries"`
}

var operators = map[configs.Operator]string{configs.NotEqualTo: "NE", configs.LessThan: "LT", configs.LessThanOrEqualTo: "LE",
	configs.EqualTo: "EQ", configs.GreaterThanOrEqualTo: "GE", configs.GreaterThan: "GT", configs.MaskEqualTo: "MASKED_EQ"}
var actions = map[configs.Action]string{configs.Kill: "KILL", configs.KillThread: "KILL", configs.KillProcess: "KILL_PROCESS",
	configs.Errno: "ERRNO", configs.Trap: "TRAP", configs.Allow: "ALLOW", configs.Trace: "TRACE", configs.Log: "LOG", configs.Notify: "NOTIFY"}

func asked(engine string, text []byte) answer {
	read, err := section(engine, text)
	if err != nil {
		return answer{Error: err.Error()}
	}
	if read == nil {
		return answer{Off: true}
	}
	read.Flags = nil // runc 1.1.5 refuses all
	made, err := specconv.SetupSeccomp(read)
	if err != nil {
		return answer{Error: err.Error()}
	}
	if made == nil {
		return answer{Off: true}
	}
	told := answer{Default: actions[made.DefaultAction], Errno: made.DefaultErrnoRet, Archs: made.Architectures}
	for _, call := range made.Syscalls {
		one := entry{Name: call.Name, Action: actions[call.Action], Errno: call.ErrnoRet}
		for _, arg := range call.Args {
			one.Args = append(one.Args, condition{arg.Index, operators[arg.Op], arg.Value, arg.ValueTwo})
		}
		told.Entries = append(told.Entries, one)
	}
	return told
}

func main() {
	in, out := bufio.NewReaderSize(os.Stdin, 1<<20), json.NewEncoder(os.Stdout)
	for {
		line, err := in.ReadBytes('\n')
		if err != nil {
			return
		}
		text, err := hex.DecodeString(string(bytes.TrimSpace(line)))
		if err != nil {
			os.Exit(3)
		}
		out.Encode(asked(os.Args[1], text))
	}
}
