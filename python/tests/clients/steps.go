// A client of Google's go-dap: it steps through a pickle, hits each kind of breakpoint, edits and saves.
//
// Arguments: the pickle, the file to save to, a line of the listing, a condition, a pattern of names, an offset, a line of the Python code, the name of an
// opcode's row and its new value, and the command of the adapter. It prints a line for each thing that it did.
package main

import (
	"bufio"
	"encoding/json"
	"fmt"
	"io"
	"log"
	"os"
	"os/exec"
	"strconv"
	"strings"

	"github.com/google/go-dap"
)

type client struct {
	reader *bufio.Reader
	writer io.Writer
	seq    int
	events []dap.EventMessage
}

func must(err error) {
	if err != nil {
		log.Fatal(err)
	}
}

func number(text string) int {
	found, err := strconv.ParseInt(text, 0, 64)
	must(err)
	return int(found)
}

// Asks, and returns the answer. Events before it are kept.
func (c *client) ask(command string, message dap.RequestMessage) dap.Message {
	c.seq++
	request := message.GetRequest()
	request.Seq, request.Type, request.Command = c.seq, "request", command
	must(dap.WriteProtocolMessage(c.writer, message))
	for {
		got, err := dap.ReadProtocolMessage(c.reader)
		must(err)
		if event, is := got.(dap.EventMessage); is {
			c.events = append(c.events, event)
			continue
		}
		response := got.(dap.ResponseMessage).GetResponse()
		if response.RequestSeq != c.seq || response.Command != command {
			log.Fatalf("another answer: %+v", response)
		}
		if !response.Success {
			fmt.Println("refused", command+":", response.Message)
		}
		return got
	}
}

// Waits for an event of a name.
func (c *client) event(name string) dap.EventMessage {
	for at := 0; ; at++ {
		for at >= len(c.events) {
			got, err := dap.ReadProtocolMessage(c.reader)
			must(err)
			c.events = append(c.events, got.(dap.EventMessage))
		}
		if found := c.events[at]; found.GetEvent().Event == name {
			c.events = c.events[at+1:]
			return found
		}
	}
}

// Moves, and returns where that ended, and why.
func (c *client) move(command string, message dap.RequestMessage) (int, dap.StoppedEventBody) {
	c.events = nil
	c.ask(command, message)
	stopped := c.event("stopped").(*dap.StoppedEvent).Body
	trace := c.ask("stackTrace", &dap.StackTraceRequest{Arguments: dap.StackTraceArguments{ThreadId: 1}}).(*dap.StackTraceResponse)
	return number(trace.Body.StackFrames[0].InstructionPointerReference), stopped
}

func (c *client) forward() (int, dap.StoppedEventBody) {
	return c.move("stepIn", &dap.StepInRequest{Arguments: dap.StepInArguments{ThreadId: 1}})
}

func (c *client) back() (int, dap.StoppedEventBody) {
	return c.move("stepBack", &dap.StepBackRequest{Arguments: dap.StepBackArguments{ThreadId: 1}})
}

func (c *client) run() (int, dap.StoppedEventBody) {
	return c.move("continue", &dap.ContinueRequest{Arguments: dap.ContinueArguments{ThreadId: 1}})
}

func (c *client) reverse() (int, dap.StoppedEventBody) {
	return c.move("reverseContinue", &dap.ReverseContinueRequest{Arguments: dap.ReverseContinueArguments{ThreadId: 1}})
}

// The variables of a scope.
func (c *client) scope(name string) (int, []dap.Variable) {
	scopes := c.ask("scopes", &dap.ScopesRequest{Arguments: dap.ScopesArguments{FrameId: 1}}).(*dap.ScopesResponse)
	for _, scope := range scopes.Body.Scopes {
		if scope.Name == name {
			found := c.ask("variables", &dap.VariablesRequest{Arguments: dap.VariablesArguments{VariablesReference: scope.VariablesReference}})
			return scope.VariablesReference, found.(*dap.VariablesResponse).Body.Variables
		}
	}
	log.Fatal("there is no scope ", name)
	return 0, nil
}

// Runs from one end to the other, and prints where it stopped and why.
func (c *client) stops(kind string) {
	for _, end := range []string{"end", "start"} {
		fmt.Print(kind, " to the ", end, ":")
		for {
			go_on := c.run
			if end == "start" {
				go_on = c.reverse
			}
			offset, stopped := go_on()
			if strings.Contains(stopped.Description, "at the "+end) {
				break
			}
			fmt.Printf(" %d (%s)", offset, stopped.Reason)
		}
		fmt.Println()
	}
}

// Opens the pickle, and steps to its end and back to its start.
func (c *client) walk(program string) {
	known := c.ask("initialize", &dap.InitializeRequest{Arguments: dap.InitializeRequestArguments{
		ClientID: "go", AdapterID: "pickle", LinesStartAt1: true, ColumnsStartAt1: true}}).(*dap.InitializeResponse).Body
	fmt.Println("goes back:", known.SupportsStepBack)
	launched, err := json.Marshal(map[string]string{"program": program})
	must(err)
	c.ask("launch", &dap.LaunchRequest{Arguments: launched})
	c.event("initialized")
	c.ask("configurationDone", &dap.ConfigurationDoneRequest{})
	fmt.Println("entry:", c.event("stopped").(*dap.StoppedEvent).Body.Reason == "entry")
	for _, way := range []struct {
		name, end string
		step      func() (int, dap.StoppedEventBody)
	}{{"forwards", "end", c.forward}, {"back", "start", c.back}} {
		fmt.Print(way.name, ":")
		for {
			offset, stopped := way.step()
			fmt.Printf(" %d", offset)
			if strings.Contains(stopped.Description, "at the "+way.end) {
				break
			}
		}
		fmt.Println()
	}
}

// Sets each kind of breakpoint, hits it both ways, and takes it away.
func (c *client) breaks(line int, condition string, pattern string, offset string, code int) {
	sources := c.ask("loadedSources", &dap.LoadedSourcesRequest{}).(*dap.LoadedSourcesResponse).Body.Sources
	lines := func(source int, breakpoints []dap.SourceBreakpoint) {
		c.ask("setBreakpoints", &dap.SetBreakpointsRequest{Arguments: dap.SetBreakpointsArguments{Source: sources[source], Breakpoints: breakpoints}})
	}
	lines(0, []dap.SourceBreakpoint{{Line: line}})
	c.stops("line")
	lines(0, []dap.SourceBreakpoint{{Line: line, Condition: condition}})
	c.stops("condition")
	lines(0, nil)
	lines(1, []dap.SourceBreakpoint{{Line: code}})
	c.stops("code")
	lines(1, nil)
	functions := func(breakpoints []dap.FunctionBreakpoint) {
		c.ask("setFunctionBreakpoints", &dap.SetFunctionBreakpointsRequest{Arguments: dap.SetFunctionBreakpointsArguments{Breakpoints: breakpoints}})
	}
	functions([]dap.FunctionBreakpoint{{Name: pattern}})
	c.stops("function")
	functions(nil)
	instructions := func(breakpoints []dap.InstructionBreakpoint) {
		c.ask("setInstructionBreakpoints", &dap.SetInstructionBreakpointsRequest{
			Arguments: dap.SetInstructionBreakpointsArguments{Breakpoints: breakpoints}})
	}
	instructions([]dap.InstructionBreakpoint{{InstructionReference: offset}})
	c.stops("instruction")
	instructions(nil)
	exceptions := func(filters []string) {
		c.ask("setExceptionBreakpoints", &dap.SetExceptionBreakpointsRequest{Arguments: dap.SetExceptionBreakpointsArguments{Filters: filters}})
	}
	exceptions([]string{"call"})
	c.stops("call")
	exceptions([]string{})
	c.data("data", "Memo")
	c.data("change", "Result")
}

// Sets a breakpoint on the first of the data that a scope has at the end, hits it both ways, and takes it away.
func (c *client) data(kind string, scope string) {
	c.run()
	reference, rows := c.scope(scope)
	datum := c.ask("dataBreakpointInfo", &dap.DataBreakpointInfoRequest{Arguments: dap.DataBreakpointInfoArguments{
		VariablesReference: reference, Name: rows[0].Name}}).(*dap.DataBreakpointInfoResponse).Body
	c.reverse()
	c.ask("setDataBreakpoints", &dap.SetDataBreakpointsRequest{Arguments: dap.SetDataBreakpointsArguments{
		Breakpoints: []dap.DataBreakpoint{{DataId: datum.DataId.(string), AccessType: "write"}}}})
	c.stops(kind)
	c.ask("setDataBreakpoints", &dap.SetDataBreakpointsRequest{Arguments: dap.SetDataBreakpointsArguments{Breakpoints: []dap.DataBreakpoint{}}})
}

// Begins to run to a condition that is never true, and pauses that.
func (c *client) pause(offset string) {
	c.ask("setInstructionBreakpoints", &dap.SetInstructionBreakpointsRequest{Arguments: dap.SetInstructionBreakpointsArguments{
		Breakpoints: []dap.InstructionBreakpoint{{InstructionReference: offset, Condition: "top == 'nowhere'"}}}})
	c.reverse()
	c.events = nil
	c.ask("continue", &dap.ContinueRequest{Arguments: dap.ContinueArguments{ThreadId: 1}})
	c.ask("pause", &dap.PauseRequest{Arguments: dap.PauseArguments{ThreadId: 1}})
	fmt.Println("paused:", c.event("stopped").(*dap.StoppedEvent).Body.Reason == "pause")
	c.ask("setInstructionBreakpoints", &dap.SetInstructionBreakpointsRequest{
		Arguments: dap.SetInstructionBreakpointsArguments{Breakpoints: []dap.InstructionBreakpoint{}}})
}

// Edits an opcode: not behind the cursor, but ahead of it. Then it saves.
func (c *client) edit(row string, value string, path string) {
	set := func() {
		reference, _ := c.scope("Opcodes")
		c.ask("setVariable", &dap.SetVariableRequest{Arguments: dap.SetVariableArguments{VariablesReference: reference, Name: row, Value: value}})
	}
	c.run()
	set()
	c.reverse()
	set()
	said := c.ask("evaluate", &dap.EvaluateRequest{Arguments: dap.EvaluateArguments{Expression: "save '" + path + "'", Context: "repl"}})
	fmt.Println("saved:", strings.HasPrefix(said.(*dap.EvaluateResponse).Body.Result, "saved "))
	c.ask("disconnect", &dap.DisconnectRequest{})
}

func main() {
	given := os.Args[1:]
	adapter := exec.Command(given[9], given[10:]...)
	adapter.Stderr = os.Stderr
	writer, err := adapter.StdinPipe()
	must(err)
	reader, err := adapter.StdoutPipe()
	must(err)
	must(adapter.Start())
	c := &client{reader: bufio.NewReader(reader), writer: writer}
	c.walk(given[0])
	c.breaks(number(given[2]), given[3], given[4], given[5], number(given[6]))
	c.pause(given[5])
	c.edit(given[7], given[8], given[1])
	must(adapter.Wait())
	fmt.Println("ended: true")
}
