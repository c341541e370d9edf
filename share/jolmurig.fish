# The completion of jolmurig's arguments, for fish. docs/compare_manual compares it with the program's help.

set -l commands show check list convert proxy accept
set -l types \
    Ticket Authenticator EncTicketPart AS-REQ AS-REP TGS-REQ TGS-REP AP-REQ AP-REP \
    KRB-PRIV KRB-CRED EncASRepPart EncTGSRepPart EncAPRepPart EncKrbPrivPart \
    EncKrbCredPart KRB-ERROR token PAC NEGOEX password-frame keytab ccache \
    PrincipalName HostAddress HostAddresses AuthorizationData EncryptedData \
    EncryptionKey Checksum TransitedEncoding LastReq KDC-REQ-BODY KrbCredInfo PA-DATA \
    METHOD-DATA PA-ENC-TS-ENC ETYPE-INFO2-ENTRY ETYPE-INFO2 KERB-PA-PAC-REQUEST \
    PA-PAC-OPTIONS KERB-ERROR-DATA KERB-AD-RESTRICTION-ENTRY ChangePasswdData TGT-REQ \
    TGT-REP KDC-PROXY-MESSAGE PKU2U-NEGO-REQ-METADATA PKU2U-NEGO-BODY PKU2U-NEGO-REQ \
    PKU2U-NEGO-REP KRB-FINISHED PA-PK-AS-REQ PA-PK-AS-REP DHAuthPack ECAuthPack \
    PKAuthenticator ExternalPrincipalIdentifier DHRepInfo KDCDHKeyInfo \
    AlgorithmIdentifier SubjectPublicKeyInfo DHSubjectPublicKeyInfo DomainParameters \
    ValidationParms TSCredentials TSPasswordCreds TSSmartCardCreds TSCspDataDetail \
    TSRemoteGuardCreds TSRemoteGuardPackageCred

complete -c jolmurig -n "not __fish_seen_subcommand_from $commands" -f -a show -d "what octets hold"
complete -c jolmurig -n "not __fish_seen_subcommand_from $commands" -f -a check -d "whether octets are of a type"
complete -c jolmurig -n "not __fish_seen_subcommand_from $commands" -f -a list -d "the entries of a keytab or of a cache"
complete -c jolmurig -n "not __fish_seen_subcommand_from $commands" -f -a convert -d "a cache as a KRB-CRED, or back"
complete -c jolmurig -n "not __fish_seen_subcommand_from $commands" -f -a proxy -d "what a KDC proxy passes on"
complete -c jolmurig -n "not __fish_seen_subcommand_from $commands" -f -a accept -d "whether a service lets a client in"
complete -c jolmurig -n "not __fish_seen_subcommand_from $commands" -f -l version -d "write the version"
complete -c jolmurig -l help -d "write the help"
complete -c jolmurig -n "__fish_seen_subcommand_from convert" -a "kirbi ccache"
complete -c jolmurig -n "__fish_seen_subcommand_from proxy" -a "request reply"

complete -c jolmurig -n "__fish_seen_subcommand_from show check" -l as -x -a "$types" -d "read the octets as this type"
complete -c jolmurig -n "__fish_seen_subcommand_from show" -l tree -d "show tags, lengths and contents"
complete -c jolmurig -n "__fish_seen_subcommand_from show" -l json -d "write a line of JSON"
complete -c jolmurig -n "__fish_seen_subcommand_from show" -l type -d "write the name of the type alone"
complete -c jolmurig -n "__fish_seen_subcommand_from show" -l places -d "write places"
complete -c jolmurig -n "__fish_seen_subcommand_from show" -l key -x -d "open with this key, ETYPE:HEX"
complete -c jolmurig -n "__fish_seen_subcommand_from show" -l key-file -r -d "open with the key of this file"
complete -c jolmurig -n "__fish_seen_subcommand_from show" -l password-file -r -d "open with the keys of a password"
complete -c jolmurig -n "__fish_seen_subcommand_from show accept" -l keytab -r -d "the keys of this keytab"
complete -c jolmurig -n "__fish_seen_subcommand_from show" -l all-found-keys -d "try all keys that are found"
complete -c jolmurig -n "__fish_seen_subcommand_from show" -l show-keys -d "write the octets of keys"
complete -c jolmurig -n "__fish_seen_subcommand_from show" -l no-keys -d "write no octets of keys"
complete -c jolmurig -n "__fish_seen_subcommand_from accept" -l time -x -d "the service's time"
complete -c jolmurig -n "__fish_seen_subcommand_from accept" -l skew -x -d "by how many seconds clocks may differ"
complete -c jolmurig -n "__fish_seen_subcommand_from accept" -l server -x -d "let in clients for this server"
complete -c jolmurig -n "__fish_seen_subcommand_from accept" -l realm -x -d "let in clients of this realm"
complete -c jolmurig -n "__fish_seen_subcommand_from accept" -l bindings -x -d "the MD5 of the channel bindings"
complete -c jolmurig -n "__fish_seen_subcommand_from accept" -l pac -x -a "required ignored" -d "what is done with the PAC"
complete -c jolmurig -n "__fish_seen_subcommand_from accept" -l bare -d "take an AP-REQ with no frame"
complete -c jolmurig -n "__fish_seen_subcommand_from accept" -l other-checksum -d "take another checksum"
