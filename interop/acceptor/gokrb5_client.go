// A token of gokrb5 for a server: gokrb5_client SERVER, with the password and the realm in the environment, and KRB5_CONFIG.
package main

import (
	"encoding/hex"
	"fmt"
	"os"

	"github.com/jcmturner/gokrb5/v8/client"
	"github.com/jcmturner/gokrb5/v8/config"
	"github.com/jcmturner/gokrb5/v8/gssapi"
	"github.com/jcmturner/gokrb5/v8/spnego"
)

func check(err error) {
	if err != nil {
		fmt.Fprintln(os.Stderr, err)
		os.Exit(1)
	}
}

func main() {
	settings, err := config.Load(os.Getenv("KRB5_CONFIG"))
	check(err)
	suites := []int32{20, 19, 18, 17}
	settings.LibDefaults.DefaultTktEnctypeIDs, settings.LibDefaults.DefaultTGSEnctypeIDs, settings.LibDefaults.PermittedEnctypeIDs = suites, suites, suites
	user := client.NewWithPassword("ann", os.Getenv("REALM"), os.Getenv("PASSWORD"), settings, client.DisablePAFXFAST(true))
	check(user.Login())
	ticket, key, err := user.GetServiceTicket(os.Args[1])
	check(err)
	made, err := spnego.NewKRB5TokenAPREQ(user, ticket, key, []int{gssapi.ContextFlagInteg, gssapi.ContextFlagConf}, []int{})
	check(err)
	token, err := made.Marshal()
	check(err)
	fmt.Println("token", hex.EncodeToString(token))
	fmt.Println("key", hex.EncodeToString(key.KeyValue))
	fmt.Println("server", os.Args[1])
}
