tables
attr disk
attr tape
attr ifnet
attr tty
attr dull
attr arp
attr ether
attr wlan
attr bpf_filter
attr firmload
iattr mii [phy=-1]
attr mii_phy
attr mii_bitbang
iattr scsi [channel=-1]
iattr atapi [channel=-1]
attr scsi_core
iattr ata [channel=-1]
iattr ata_hl [drive=-1]
iattr pcibus [bus=-1]
iattr isabus
iattr pcmciabus [controller=-1] [socket=-1]
iattr usbus
iattr i2cbus
attr i2cexec
iattr gpiobus
iattr onewirebus
iattr parport
iattr audiobus
iattr midibus
iattr radiodev
iattr videobus
iattr fwbus
iattr sdmmcbus
attr sysmon_envsys
attr sysmon_power
attr sysmon_wdog
attr opencrypto
attr ac97
attr auconv
attr smc93cx6
attr edid
attr videomode
iattr wsdisplaydev [kbdmux=1]
iattr wsemuldisplaydev [console=-1] [kbdmux=1]
iattr wskbddev [console=-1] [mux=1]
iattr wsmousedev [mux=0]
attr wsrasteremulops
attr vcons
iattr pckbport [slot=-1]
iattr pcppi
iattr fdc drive=-1
iattr aac [unit=-1]
iattr cac [unit=-1]
iattr twe [unit=-1]
iattr nvme [nsid=-1]
iattr scsibus target=-1 lun=-1
iattr atapibus drive=-1
iattr ataraid [vendtype=-1] [unit=-1]
iattr audio
iattr hdaudiobus [nid=-1]
iattr iic [addr=-1] [size=-1]
iattr ihidev [reportid=-1]
iattr gpio offset mask [flag=0]
iattr onewire
iattr ppbus
iattr sdmmc
iattr ieee1394 [euihi=-1] [euilo=-1]
attr accf_data
attr accf_http
attr agr
attr bio
attr bpfilter
attr bridge
attr carp
attr ccd
attr cgd
attr clockctl
attr cpuctl
attr crypto
attr drvctl
attr fss
attr gif
attr gre
attr ksyms
attr l2tp
attr lockstat
attr loop
attr md
attr mpls
attr openfirm
attr ppp
attr pppoe
attr pty
attr putter
attr raid
attr sequencer
attr sl
attr srt
attr stf
attr swcrypto
attr swwdog
attr tap
attr tun
attr vlan
attr vnd
attr wsmux
attr acpica
attr npf
attr drmkms
attr drmkms_linux
iattr cpubus [apid=-1]
iattr cpufeaturebus
iattr ioapicbus [apid=-1]
iattr ipmibus
iattr acpibus
iattr acpinodebus
iattr acpiapmbus
iattr acpihpetbus
iattr acpiecdtbus
iattr acpiwdrtbus
attr acpiioapicbus
iattr acpioutbus
iattr acpiwmibus
iattr pci [dev=-1] [function=-1]
iattr agpbus
iattr hpetichbus
iattr tcoichbus
iattr fwhichbus
iattr amdnbbus
iattr intelfbbus
iattr radeonfbbus
attr pciide_common
iattr jmide_hl
iattr mskc
iattr skc
iattr pcmciaslot [slot=-1]
iattr puc port=-1
iattr isa [port=-1] [size=0] [iomem=-1] [iosiz=0] [irq=-1] [drq=-1] [drq2=-1]
iattr comslave slave=-1
iattr wbsio
iattr virtio
iattr btbus
iattr bthub
iattr bthidev [reportid=-1]
iattr usbroothubif
iattr usbdevif [port=-1] [configuration=-1] [vendor=-1] [product=-1] [release=-1]
iattr usbifif [port=-1] [configuration=-1] [interface=-1] [vendor=-1] [product=-1] [release=-1]
iattr uhidbus [reportid=-1]
iattr ucombus [portno=-1]
attr usbnet
iattr cbbus [slot=-1]
iattr cardbus [function=-1]
iattr pcmcia [function=-1]
iattr hypervvmbus
device wsdisplay
device wskbd
device wsmouse
device pckbd offers wskbddev
device pms offers wsmousedev
device attimer
device pcppi offers pcppi
device pckbc offers pckbport
device com
device lpt
device hpet
device vga offers wsemuldisplaydev
device ld
device wdc offers ata
device fdc offers fdc
device fd
device aac offers aac
device cac offers cac
device twe offers twe
device nvme offers nvme
device aha offers scsi
device ahc offers scsi
device ahd offers scsi
device bha offers scsi
device esiop offers scsi
device isp offers scsi
device mfi offers scsi
device mpii offers scsi
device mpt offers scsi
device siop offers scsi
device ath
device athn
device ep offers mii
device epic offers mii
device ex offers mii
device fxp offers mii
device ne offers mii
device ral
device re offers mii
device rtk offers mii
device rtw
device tlp offers mii
device wi
device uhci offers usbus
device ohci offers usbus
device ehci offers usbus
device xhci offers usbus
device fwohci offers fwbus
device sdhc offers sdmmcbus
device tpm
device joy
device lm
device ug
device wss offers audiobus
device mpu offers midibus
device opl offers midibus
device acphy
device atphy
device brgphy
device ciphy
device exphy
device igphy
device ihphy
device ikphy
device inphy
device makphy
device nsphy
device nsphyter
device rgephy
device rlphy
device smscphy
device ukphy
device scsibus offers scsibus
device atapibus offers atapibus
device sd
device st
device cd
device ch
device ses
device ss
device uk
device atabus offers ata_hl atapi
device wd
device ataraid offers ataraid
device audio offers audio
device spkr
device midi
device radio
device video
device hdaudio offers hdaudiobus
device hdafg offers audiobus
device iic offers iic
device spdmem
device sdtemp
device dbcool
device lmtemp
device ihidev offers ihidev
device ims offers wsmousedev
device imt offers wsmousedev
device gpio offers gpio
device gpioow offers onewirebus
device onewire offers onewire
device owtemp
device atppc offers parport
device ppbus offers ppbus
device plip
device sdmmc offers sdmmc
device sbt
device bwfm
device ieee1394if offers ieee1394
device fwip
device sbp offers scsi
device cpu offers cpufeaturebus
device acpicpu
device coretemp
device viac7temp
device vmt
device hyperv
device ioapic
device ipmi
device acpi offers acpiapmbus acpinodebus acpihpetbus acpiecdtbus acpiwdrtbus
device acpiacad
device acpibat
device acpibut
device acpidalb
device acpiec
device acpiecdt
device acpifan
device acpilid
device acpismbus offers i2cbus
device acpitz
device acpiwdrt
device acpivga offers acpioutbus
device acpiout
device acpiwmi offers acpiwmibus
device wmidell
device wmihp
device thinkpad
device sony
device aibs
device dwiic offers i2cbus
device qemufwcfg
device vmgenid
device pci offers pci
device pchb offers pcibus agpbus
device agp
device ppb offers pcibus
device pcib offers isabus
device ichlpcib offers isabus hpetichbus tcoichbus fwhichbus gpiobus
device amdpcib offers isabus hpetichbus
device piixpcib offers isabus
device tco
device fwhrng
device amdnb_misc offers amdnbbus
device amdtemp
device genfb offers wsemuldisplaydev
device i915drmkms offers intelfbbus
device intelfb offers wsemuldisplaydev
device radeon offers radeonfbbus
device radeondrmkmsfb offers wsemuldisplaydev
device ahcisata offers ata
device cmdide offers ata
device ixpide offers ata
device jmide offers ata jmide_hl
device mvsata offers ata
device pciide offers ata
device piixide offers ata
device satalink offers ata
device siisata offers ata
device viaide offers ata
device alc offers mii
device aq
device bge offers mii
device bnx offers mii
device iavf
device iwi
device iwm
device iwn
device ixg
device ixl
device ixv
device mskc offers mskc
device msk offers mii
device nfe offers mii
device pcn offers mii
device skc offers skc
device sk offers mii
device vge offers mii
device vmx
device vr offers mii
device wm offers mii
device wpi
device rtsx offers sdmmcbus
device ichsmb offers i2cbus
device piixpm offers i2cbus
device cbb offers pcmciaslot
device auich offers audiobus
device auvia offers audiobus
device eap offers audiobus midibus
device emuxki offers audiobus
device bktr offers radiodev
device puc offers puc
device hifn
device qat
device amdccp
device isa offers isa
device sysbeep
device pcdisplay offers wsemuldisplaydev
device we
device cs
device sb offers audiobus midibus radiodev
device ast offers comslave
device pcic offers pcmciabus
device itesio
device wbsio offers wbsio gpiobus
device aps
device virtio offers virtio
device vioif
device viomb
device viornd
device vioscsi offers scsi
device viocon
device vio9p
device bthub offers bthub
device bthidev offers bthidev
device btkbd offers wskbddev
device btms offers wsmousedev
device btsco offers audiobus
device btuart offers btbus
device usb offers usbroothubif
device uhub offers usbdevif usbifif
device uhidev offers uhidbus
device uhid
device ukbd offers wskbddev
device ums offers wsmousedev
device umass offers scsi atapi ata_hl
device uaudio offers audiobus
device umidi offers midibus
device uvideo offers videobus
device ucom
device umodem offers ucombus
device uftdi offers ucombus
device uplcom offers ucombus
device uchcom offers ucombus
device ulpt
device aue offers mii
device axe offers mii
device axen offers mii
device cdce offers mii
device ure offers mii
device run
device urtwn
device ubt offers btbus
device ugen
device cardslot offers cbbus pcmciabus
device cardbus offers cardbus
device pcmcia offers pcmcia
device vmbus offers hypervvmbus
device hvn
device storvsc offers scsi
device hvkbd offers wskbddev
device hvheartbeat
device hvshutdown
device hvtimesync
device mainbus offers cpubus ioapicbus acpibus ipmibus pcibus isabus
attach wsdisplay_emul of wsdisplay at wsemuldisplaydev
attach wsdisplay_noemul of wsdisplay at wsdisplaydev
attach wskbd of wskbd at wskbddev
attach wsmouse of wsmouse at wsmousedev
attach pckbd of pckbd at pckbport
attach pms of pms at pckbport
attach fd of fd at fdc
attach ld_aac of ld at aac
attach ld_cac of ld at cac
attach ld_twe of ld at twe
attach ld_nvme of ld at nvme
attach acphy of acphy at mii
attach atphy of atphy at mii
attach brgphy of brgphy at mii
attach ciphy of ciphy at mii
attach exphy of exphy at mii
attach igphy of igphy at mii
attach ihphy of ihphy at mii
attach ikphy of ikphy at mii
attach inphy of inphy at mii
attach makphy of makphy at mii
attach nsphy of nsphy at mii
attach nsphyter of nsphyter at mii
attach rgephy of rgephy at mii
attach rlphy of rlphy at mii
attach smscphy of smscphy at mii
attach ukphy of ukphy at mii
attach scsibus of scsibus at scsi
attach atapibus of atapibus at atapi
attach sd_scsibus of sd at scsibus
attach sd_atapibus of sd at atapibus
attach st_scsibus of st at scsibus
attach st_atapibus of st at atapibus
attach cd_scsibus of cd at scsibus
attach cd_atapibus of cd at atapibus
attach ch of ch at scsibus
attach ses of ses at scsibus
attach ss of ss at scsibus
attach uk_scsibus of uk at scsibus
attach uk_atapibus of uk at atapibus
attach atabus of atabus at ata
attach wd of wd at ata_hl
attach ataraid of ataraid at root
attach ld_ataraid of ld at ataraid
attach audio of audio at audiobus
attach spkr_audio of spkr at audio
attach midi of midi at midibus
attach radio of radio at radiodev
attach video of video at videobus
attach hdafg of hdafg at hdaudiobus
attach iic of iic at i2cbus
attach spdmem_iic of spdmem at iic
attach sdtemp of sdtemp at iic
attach dbcool of dbcool at iic
attach lmtemp of lmtemp at iic
attach ihidev of ihidev at iic
attach ims of ims at ihidev
attach imt of imt at ihidev
attach gpio of gpio at gpiobus
attach gpioow of gpioow at gpio
attach onewire of onewire at onewirebus
attach owtemp of owtemp at onewire
attach ppbus of ppbus at parport
attach plip of plip at ppbus
attach lpt_ppbus of lpt at ppbus
attach sdmmc of sdmmc at sdmmcbus
attach ld_sdmmc of ld at sdmmc
attach sbt of sbt at sdmmc
attach bwfm_sdio of bwfm at sdmmc
attach ieee1394if of ieee1394if at fwbus
attach fwip of fwip at ieee1394
attach sbp of sbp at ieee1394
attach cpu of cpu at cpubus
attach acpicpu of acpicpu at cpufeaturebus
attach coretemp of coretemp at cpufeaturebus
attach viac7temp of viac7temp at cpufeaturebus
attach vmt of vmt at cpufeaturebus
attach hyperv of hyperv at cpufeaturebus
attach ioapic of ioapic at ioapicbus
attach ipmi of ipmi at ipmibus
attach acpi of acpi at acpibus
attach acpiacad of acpiacad at acpinodebus
attach acpibat of acpibat at acpinodebus
attach acpibut of acpibut at acpinodebus
attach acpidalb of acpidalb at acpinodebus
attach acpiec of acpiec at acpinodebus
attach acpiecdt of acpiecdt at acpiecdtbus
attach acpifan of acpifan at acpinodebus
attach acpilid of acpilid at acpinodebus
attach acpismbus of acpismbus at acpinodebus
attach acpitz of acpitz at acpinodebus
attach acpiwdrt of acpiwdrt at acpiwdrtbus
attach acpivga of acpivga at acpinodebus
attach acpiout of acpiout at acpioutbus
attach acpiwmi of acpiwmi at acpinodebus
attach wmidell of wmidell at acpiwmibus
attach wmihp of wmihp at acpiwmibus
attach thinkpad of thinkpad at acpinodebus
attach sony_acpi of sony at acpinodebus
attach aibs of aibs at acpinodebus
attach attimer_acpi of attimer at acpinodebus
attach com_acpi of com at acpinodebus
attach fdc_acpi of fdc at acpinodebus
attach hpet_acpi of hpet at acpihpetbus acpinodebus
attach joy_acpi of joy at acpinodebus
attach lpt_acpi of lpt at acpinodebus
attach mpu_acpi of mpu at acpinodebus
attach pckbc_acpi of pckbc at acpinodebus
attach pcppi_acpi of pcppi at acpinodebus
attach sdhc_acpi of sdhc at acpinodebus
attach tpm_acpi of tpm at acpinodebus
attach ug_acpi of ug at acpinodebus
attach wss_acpi of wss at acpinodebus
attach dwiic of dwiic at acpinodebus
attach qemufwcfg_acpi of qemufwcfg at acpinodebus
attach vmgenid of vmgenid at acpinodebus
attach pci of pci at pcibus
attach pchb of pchb at pci
attach agp of agp at agpbus
attach ppb of ppb at pci
attach pcib of pcib at pci
attach ichlpcib of ichlpcib at pci
attach amdpcib of amdpcib at pci
attach piixpcib of piixpcib at pci
attach hpet_ich of hpet at hpetichbus
attach tco of tco at tcoichbus
attach fwhrng of fwhrng at fwhichbus
attach amdnb_misc of amdnb_misc at pci
attach amdtemp of amdtemp at amdnbbus
attach vga_pci of vga at pci
attach genfb_pci of genfb at pci
attach i915drmkms of i915drmkms at pci
attach intelfb of intelfb at intelfbbus
attach radeon of radeon at pci
attach radeondrmkmsfb of radeondrmkmsfb at radeonfbbus
attach ahc_pci of ahc at pci
attach ahd_pci of ahd at pci
attach bha_pci of bha at pci
attach esiop_pci of esiop at pci
attach isp_pci of isp at pci
attach mfi_pci of mfi at pci
attach mpii of mpii at pci
attach mpt_pci of mpt at pci
attach siop_pci of siop at pci
attach aac_pci of aac at pci
attach cac_pci of cac at pci
attach twe of twe at pci
attach nvme_pci of nvme at pci
attach ahcisata_pci of ahcisata at pci
attach cmdide of cmdide at pci
attach ixpide of ixpide at pci
attach jmide of jmide at pci
attach jmahci of ahcisata at jmide_hl
attach mvsata_pci of mvsata at pci
attach pciide_pci of pciide at pci
attach piixide of piixide at pci
attach satalink of satalink at pci
attach siisata_pci of siisata at pci
attach viaide of viaide at pci
attach alc of alc at pci
attach ath_pci of ath at pci
attach athn_pci of athn at pci
attach aq of aq at pci
attach bge of bge at pci
attach bnx of bnx at pci
attach bwfm_pci of bwfm at pci
attach ep_pci of ep at pci
attach epic_pci of epic at pci
attach ex_pci of ex at pci
attach fxp_pci of fxp at pci
attach iavf of iavf at pci
attach iwi of iwi at pci
attach iwm of iwm at pci
attach iwn of iwn at pci
attach ixg of ixg at pci
attach ixl of ixl at pci
attach ixv of ixv at pci
attach mskc of mskc at pci
attach msk of msk at mskc
attach ne_pci of ne at pci
attach nfe of nfe at pci
attach pcn of pcn at pci
attach ral_pci of ral at pci
attach re_pci of re at pci
attach rtk_pci of rtk at pci
attach rtw_pci of rtw at pci
attach skc of skc at pci
attach sk of sk at skc
attach tlp_pci of tlp at pci
attach vge of vge at pci
attach vmx of vmx at pci
attach vr of vr at pci
attach wi_pci of wi at pci
attach wm of wm at pci
attach wpi of wpi at pci
attach xhci_pci of xhci at pci
attach ehci_pci of ehci at pci
attach ohci_pci of ohci at pci
attach uhci_pci of uhci at pci
attach fwohci_pci of fwohci at pci
attach sdhc_pci of sdhc at pci
attach rtsx_pci of rtsx at pci
attach ichsmb of ichsmb at pci
attach piixpm of piixpm at pci
attach cbb_pci of cbb at pci
attach auich of auich at pci
attach auvia of auvia at pci
attach eap of eap at pci
attach emuxki of emuxki at pci
attach hdaudio_pci of hdaudio at pci
attach bktr of bktr at pci
attach puc of puc at pci
attach com_puc of com at puc
attach lpt_puc of lpt at puc
attach hifn of hifn at pci
attach qat of qat at pci
attach amdccp_pci of amdccp at pci
attach joy_pci of joy at pci
attach isa of isa at isabus
attach com_isa of com at isa
attach lpt_isa of lpt at isa
attach attimer_isa of attimer at isa
attach pckbc_isa of pckbc at isa
attach vga_isa of vga at isa
attach fdc_isa of fdc at isa
attach wdc_isa of wdc at isa
attach atppc_isa of atppc at isa
attach pcppi_isa of pcppi at isa
attach sysbeep of sysbeep at pcppi
attach spkr_pcppi of spkr at pcppi
attach midi_pcppi of midi at pcppi
attach pcdisplay of pcdisplay at isa
attach aha_isa of aha at isa
attach bha_isa of bha at isa
attach ep_isa of ep at isa
attach ne_isa of ne at isa
attach we_isa of we at isa
attach cs_isa of cs at isa
attach sb_isa of sb at isa
attach wss_isa of wss at isa
attach opl_isa of opl at isa
attach mpu_isa of mpu at isa
attach joy_isa of joy at isa
attach ast of ast at isa
attach com_multi of com at comslave
attach pcic_isa of pcic at isa
attach lm_isa of lm at isa
attach itesio of itesio at isa
attach wbsio of wbsio at isa
attach lm_wbsio of lm at wbsio
attach aps of aps at isa
attach ug_isa of ug at isa
attach tpm_isa of tpm at isa
attach virtio_pci of virtio at pci
attach virtio_acpi of virtio at acpinodebus
attach ld_virtio of ld at virtio
attach vioif of vioif at virtio
attach viomb of viomb at virtio
attach viornd of viornd at virtio
attach vioscsi of vioscsi at virtio
attach viocon of viocon at virtio
attach vio9p_virtio of vio9p at virtio
attach bthub of bthub at btbus
attach bthidev of bthidev at bthub
attach btkbd of btkbd at bthidev
attach btms of btms at bthidev
attach btsco of btsco at bthub
attach usb of usb at usbus
attach uroothub of uhub at usbroothubif
attach uhub of uhub at usbdevif
attach uhidev of uhidev at usbifif
attach uhid of uhid at uhidbus
attach ukbd of ukbd at uhidbus
attach ums of ums at uhidbus
attach umass of umass at usbifif
attach uaudio of uaudio at usbifif
attach umidi of umidi at usbifif
attach uvideo of uvideo at usbifif
attach ucom of ucom at ucombus
attach umodem of umodem at usbifif
attach uftdi of uftdi at usbifif
attach uplcom of uplcom at usbdevif
attach uchcom of uchcom at usbdevif
attach ulpt of ulpt at usbifif
attach aue of aue at usbdevif
attach axe of axe at usbdevif
attach axen of axen at usbdevif
attach cdce of cdce at usbifif
attach ure of ure at usbdevif
attach run of run at usbdevif
attach urtwn of urtwn at usbdevif
attach athn_usb of athn at usbdevif
attach ubt of ubt at usbdevif
attach ugen_dev of ugen at usbdevif
attach ugenif of ugen at usbifif
attach cardslot of cardslot at pcmciaslot
attach cardbus of cardbus at cbbus
attach ahc_cardbus of ahc at cardbus
attach ath_cardbus of ath at cardbus
attach com_cardbus of com at cardbus
attach ehci_cardbus of ehci at cardbus
attach ex_cardbus of ex at cardbus
attach fwohci_cardbus of fwohci at cardbus
attach fxp_cardbus of fxp at cardbus
attach ohci_cardbus of ohci at cardbus
attach ral_cardbus of ral at cardbus
attach re_cardbus of re at cardbus
attach rtk_cardbus of rtk at cardbus
attach rtw_cardbus of rtw at cardbus
attach siisata_cardbus of siisata at cardbus
attach tlp_cardbus of tlp at cardbus
attach uhci_cardbus of uhci at cardbus
attach pcmcia of pcmcia at pcmciabus
attach com_pcmcia of com at pcmcia
attach ep_pcmcia of ep at pcmcia
attach ne_pcmcia of ne at pcmcia
attach wdc_pcmcia of wdc at pcmcia
attach wi_pcmcia of wi at pcmcia
attach vmbus_acpi of vmbus at acpinodebus
attach hvn of hvn at hypervvmbus
attach storvsc of storvsc at hypervvmbus
attach hvkbd of hvkbd at hypervvmbus
attach hvheartbeat of hvheartbeat at hypervvmbus
attach hvshutdown of hvshutdown at hypervvmbus
attach hvtimesync of hvtimesync at hypervvmbus
attach mainbus of mainbus at root
row 0 wsdisplay* from 0 at vga? by wsdisplay_emul on wsemuldisplaydev console=-1 kbdmux=1 flags 0
row 1 wsdisplay* from 0 at pcdisplay? by wsdisplay_emul on wsemuldisplaydev console=-1 kbdmux=1 flags 0
row 2 wsdisplay* from 0 at wsemuldisplaydev? by wsdisplay_emul on wsemuldisplaydev console=-1 kbdmux=1 flags 0
row 3 wskbd* from 0 at pckbd? by wskbd on wskbddev console=-1 mux=1 flags 0
row 4 wskbd* from 0 at hvkbd? by wskbd on wskbddev console=-1 mux=1 flags 0
row 5 wskbd* from 0 at ukbd? by wskbd on wskbddev console=-1 mux=1 flags 0
row 6 wskbd* from 0 at btkbd? by wskbd on wskbddev console=-1 mux=1 flags 0
row 7 wsmouse* from 0 at pms? by wsmouse on wsmousedev mux=0 flags 0
row 8 wsmouse* from 0 at wsmousedev? by wsmouse on wsmousedev mux=0 flags 0
row 9 wsmouse* from 0 at ums? by wsmouse on wsmousedev mux=0 flags 0
row 10 wsmouse* from 0 at btms? by wsmouse on wsmousedev mux=0 flags 0
row 11 pckbd* from 0 at pckbc? by pckbd on pckbport slot=-1 flags 0
row 12 pms* from 0 at pckbc? by pms on pckbport slot=-1 flags 0
row 13 attimer0 at isa? by attimer_isa on isa port=-1 size=0 iomem=-1 iosiz=0 irq=-1 drq=-1 drq2=-1 flags 0
row 14 attimer* from 1 at acpi? by attimer_acpi on acpinodebus flags 0
row 15 pcppi0 at isa? by pcppi_isa on isa port=-1 size=0 iomem=-1 iosiz=0 irq=-1 drq=-1 drq2=-1 flags 0
row 16 pcppi* from 1 at acpi? by pcppi_acpi on acpinodebus flags 0
row 17 pckbc0 at isa? by pckbc_isa on isa port=-1 size=0 iomem=-1 iosiz=0 irq=-1 drq=-1 drq2=-1 flags 0
row 18 pckbc* from 1 at acpi? by pckbc_acpi on acpinodebus flags 0
row 19 com0 at isa? by com_isa on isa port=1016 size=0 iomem=-1 iosiz=0 irq=4 drq=-1 drq2=-1 flags 0
row 20 com1 at isa? by com_isa on isa port=760 size=0 iomem=-1 iosiz=0 irq=3 drq=-1 drq2=-1 flags 0
row 21 com2 at isa? by com_isa on isa port=1000 size=0 iomem=-1 iosiz=0 irq=5 drq=-1 drq2=-1 flags 0
row 22 com3 at isa? by com_isa on isa port=744 size=0 iomem=-1 iosiz=0 irq=9 drq=-1 drq2=-1 flags 0
row 23 com* from 4 at acpi? by com_acpi on acpinodebus flags 0
row 24 com* from 4 at ast? by com_multi on comslave slave=-1 flags 0
row 25 com* from 4 at puc? by com_puc on puc port=-1 flags 0
row 26 com* from 4 at pcmcia? by com_pcmcia on pcmcia function=-1 flags 0
row 27 com* from 4 at cardbus? by com_cardbus on cardbus function=-1 flags 0
row 28 lpt0 at isa? by lpt_isa on isa port=888 size=0 iomem=-1 iosiz=0 irq=7 drq=-1 drq2=-1 flags 0
row 29 lpt1 at isa? by lpt_isa on isa port=632 size=0 iomem=-1 iosiz=0 irq=-1 drq=-1 drq2=-1 flags 0
row 30 lpt2 at isa? by lpt_isa on isa port=956 size=0 iomem=-1 iosiz=0 irq=-1 drq=-1 drq2=-1 flags 0
row 31 lpt* from 3 at acpi? by lpt_acpi on acpinodebus flags 0
row 32 lpt* from 3 at puc? by lpt_puc on puc port=-1 flags 0
row 33 lpt* from 3 at ppbus? by lpt_ppbus on ppbus flags 0
row 34 hpet* from 0 at acpihpetbus? by hpet_acpi on acpihpetbus flags 0
row 35 hpet* from 0 at acpinodebus? by hpet_acpi on acpinodebus flags 0
row 36 hpet* from 0 at ichlpcib? by hpet_ich on hpetichbus flags 0
row 37 hpet* from 0 at amdpcib? by hpet_ich on hpetichbus flags 0
row 38 vga0 at isa? by vga_isa on isa port=-1 size=0 iomem=-1 iosiz=0 irq=-1 drq=-1 drq2=-1 flags 0
row 39 vga* from 1 at pci? by vga_pci on pci dev=-1 function=-1 flags 0
row 40 ld* from 0 at aac? by ld_aac on aac unit=-1 flags 0
row 41 ld* from 0 at cac? by ld_cac on cac unit=-1 flags 0
row 42 ld* from 0 at twe? by ld_twe on twe unit=-1 flags 0
row 43 ld* from 0 at ataraid? by ld_ataraid on ataraid vendtype=-1 unit=-1 flags 0
row 44 ld* from 0 at nvme? by ld_nvme on nvme nsid=-1 flags 0
row 45 ld* from 0 at sdmmc? by ld_sdmmc on sdmmc flags 0
row 46 ld* from 0 at virtio? by ld_virtio on virtio flags 0
row 47 wdc0 at isa? by wdc_isa on isa port=496 size=0 iomem=-1 iosiz=0 irq=14 drq=-1 drq2=-1 flags 0
row 48 wdc1 at isa? by wdc_isa on isa port=368 size=0 iomem=-1 iosiz=0 irq=15 drq=-1 drq2=-1 flags 0
row 49 wdc* from 2 at pcmcia? by wdc_pcmcia on pcmcia function=-1 flags 0
row 50 fdc0 at isa? by fdc_isa on isa port=1008 size=0 iomem=-1 iosiz=0 irq=6 drq=2 drq2=-1 flags 0
row 51 fdc* from 1 at acpi? by fdc_acpi on acpinodebus flags 0
row 52 fd* from 0 at fdc? by fd on fdc drive=-1 flags 0
row 53 aac* from 0 at pci? by aac_pci on pci dev=-1 function=-1 flags 0
row 54 cac* from 0 at pci? by cac_pci on pci dev=-1 function=-1 flags 0
row 55 twe* from 0 at pci? by twe on pci dev=-1 function=-1 flags 0
row 56 nvme* from 0 at pci? by nvme_pci on pci dev=-1 function=-1 flags 0
row 57 aha0 at isa? by aha_isa on isa port=816 size=0 iomem=-1 iosiz=0 irq=-1 drq=-1 drq2=-1 flags 0
row 58 aha1 at isa? by aha_isa on isa port=820 size=0 iomem=-1 iosiz=0 irq=-1 drq=-1 drq2=-1 flags 0
row 59 ahc* from 0 at pci? by ahc_pci on pci dev=-1 function=-1 flags 0
row 60 ahc* from 0 at cardbus? by ahc_cardbus on cardbus function=-1 flags 0
row 61 ahd* from 0 at pci? by ahd_pci on pci dev=-1 function=-1 flags 0
row 62 bha0 at isa? by bha_isa on isa port=816 size=0 iomem=-1 iosiz=0 irq=-1 drq=-1 drq2=-1 flags 0
row 63 bha1 at isa? by bha_isa on isa port=820 size=0 iomem=-1 iosiz=0 irq=-1 drq=-1 drq2=-1 flags 0
row 64 bha* from 2 at pci? by bha_pci on pci dev=-1 function=-1 flags 0
row 65 esiop* from 0 at pci? by esiop_pci on pci dev=-1 function=-1 flags 0
row 66 isp* from 0 at pci? by isp_pci on pci dev=-1 function=-1 flags 0
row 67 mfi* from 0 at pci? by mfi_pci on pci dev=-1 function=-1 flags 0
row 68 mpii* from 0 at pci? by mpii on pci dev=-1 function=-1 flags 0
row 69 mpt* from 0 at pci? by mpt_pci on pci dev=-1 function=-1 flags 0
row 70 siop* from 0 at pci? by siop_pci on pci dev=-1 function=-1 flags 0
row 71 ath* from 0 at pci? by ath_pci on pci dev=-1 function=-1 flags 0
row 72 ath* from 0 at cardbus? by ath_cardbus on cardbus function=-1 flags 0
row 73 athn* from 0 at pci? by athn_pci on pci dev=-1 function=-1 flags 0
row 74 athn* from 0 at uhub? by athn_usb on usbdevif port=-1 configuration=-1 vendor=-1 product=-1 release=-1 flags 0
row 75 ep* from 0 at pci? by ep_pci on pci dev=-1 function=-1 flags 0
row 76 ep* from 0 at isa? by ep_isa on isa port=-1 size=0 iomem=-1 iosiz=0 irq=-1 drq=-1 drq2=-1 flags 0
row 77 ep* from 0 at pcmcia? by ep_pcmcia on pcmcia function=-1 flags 0
row 78 epic* from 0 at pci? by epic_pci on pci dev=-1 function=-1 flags 0
row 79 ex* from 0 at pci? by ex_pci on pci dev=-1 function=-1 flags 0
row 80 ex* from 0 at cardbus? by ex_cardbus on cardbus function=-1 flags 0
row 81 fxp* from 0 at pci? by fxp_pci on pci dev=-1 function=-1 flags 0
row 82 fxp* from 0 at cardbus? by fxp_cardbus on cardbus function=-1 flags 0
row 83 ne0 at isa? by ne_isa on isa port=640 size=0 iomem=-1 iosiz=0 irq=9 drq=-1 drq2=-1 flags 0
row 84 ne1 at isa? by ne_isa on isa port=768 size=0 iomem=-1 iosiz=0 irq=10 drq=-1 drq2=-1 flags 0
row 85 ne* from 2 at pci? by ne_pci on pci dev=-1 function=-1 flags 0
row 86 ne* from 2 at pcmcia? by ne_pcmcia on pcmcia function=-1 flags 0
row 87 ral* from 0 at pci? by ral_pci on pci dev=-1 function=-1 flags 0
row 88 ral* from 0 at cardbus? by ral_cardbus on cardbus function=-1 flags 0
row 89 re* from 0 at pci? by re_pci on pci dev=-1 function=-1 flags 0
row 90 re* from 0 at cardbus? by re_cardbus on cardbus function=-1 flags 0
row 91 rtk* from 0 at pci? by rtk_pci on pci dev=-1 function=-1 flags 0
row 92 rtk* from 0 at cardbus? by rtk_cardbus on cardbus function=-1 flags 0
row 93 rtw* from 0 at pci? by rtw_pci on pci dev=-1 function=-1 flags 0
row 94 rtw* from 0 at cardbus? by rtw_cardbus on cardbus function=-1 flags 0
row 95 tlp* from 0 at pci? by tlp_pci on pci dev=-1 function=-1 flags 0
row 96 tlp* from 0 at cardbus? by tlp_cardbus on cardbus function=-1 flags 0
row 97 wi* from 0 at pci? by wi_pci on pci dev=-1 function=-1 flags 0
row 98 wi* from 0 at pcmcia? by wi_pcmcia on pcmcia function=-1 flags 0
row 99 uhci* from 0 at pci? by uhci_pci on pci dev=-1 function=-1 flags 0
row 100 uhci* from 0 at cardbus? by uhci_cardbus on cardbus function=-1 flags 0
row 101 ohci* from 0 at pci? by ohci_pci on pci dev=-1 function=-1 flags 0
row 102 ohci* from 0 at cardbus? by ohci_cardbus on cardbus function=-1 flags 0
row 103 ehci* from 0 at pci? by ehci_pci on pci dev=-1 function=-1 flags 0
row 104 ehci* from 0 at cardbus? by ehci_cardbus on cardbus function=-1 flags 0
row 105 xhci* from 0 at pci? by xhci_pci on pci dev=-1 function=-1 flags 0
row 106 fwohci* from 0 at pci? by fwohci_pci on pci dev=-1 function=-1 flags 0
row 107 fwohci* from 0 at cardbus? by fwohci_cardbus on cardbus function=-1 flags 0
row 108 sdhc* from 0 at acpi? by sdhc_acpi on acpinodebus flags 0
row 109 sdhc* from 0 at pci? by sdhc_pci on pci dev=-1 function=-1 flags 0
row 110 tpm* from 0 at acpi? by tpm_acpi on acpinodebus flags 0
row 111 tpm* from 0 at isa? by tpm_isa on isa port=-1 size=0 iomem=4275306496 iosiz=0 irq=7 drq=-1 drq2=-1 flags 0
row 112 joy0 at isa? by joy_isa on isa port=513 size=0 iomem=-1 iosiz=0 irq=-1 drq=-1 drq2=-1 flags 0
row 113 joy* from 1 at acpi? by joy_acpi on acpinodebus flags 0
row 114 joy* from 1 at pci? by joy_pci on pci dev=-1 function=-1 flags 0
row 115 lm0 at isa? by lm_isa on isa port=656 size=0 iomem=-1 iosiz=0 irq=-1 drq=-1 drq2=-1 flags 0
row 116 lm* from 1 at wbsio? by lm_wbsio on wbsio flags 0
row 117 ug0 at isa? by ug_isa on isa port=224 size=0 iomem=-1 iosiz=0 irq=-1 drq=-1 drq2=-1 flags 0
row 118 ug* from 1 at acpi? by ug_acpi on acpinodebus flags 0
row 119 wss0 at isa? by wss_isa on isa port=1328 size=0 iomem=-1 iosiz=0 irq=10 drq=0 drq2=-1 flags 0
row 120 wss* from 1 at acpi? by wss_acpi on acpinodebus flags 0
row 121 mpu0 at isa? by mpu_isa on isa port=816 size=0 iomem=-1 iosiz=0 irq=9 drq=-1 drq2=-1 flags 0
row 122 mpu* from 1 at acpi? by mpu_acpi on acpinodebus flags 0
row 123 opl0 at isa? by opl_isa on isa port=904 size=0 iomem=-1 iosiz=0 irq=-1 drq=-1 drq2=-1 flags 0
row 124 acphy* from 0 at mii? by acphy on mii phy=-1 flags 0
row 125 atphy* from 0 at mii? by atphy on mii phy=-1 flags 0
row 126 brgphy* from 0 at mii? by brgphy on mii phy=-1 flags 0
row 127 ciphy* from 0 at mii? by ciphy on mii phy=-1 flags 0
row 128 exphy* from 0 at mii? by exphy on mii phy=-1 flags 0
row 129 igphy* from 0 at mii? by igphy on mii phy=-1 flags 0
row 130 ihphy* from 0 at mii? by ihphy on mii phy=-1 flags 0
row 131 ikphy* from 0 at mii? by ikphy on mii phy=-1 flags 0
row 132 inphy* from 0 at mii? by inphy on mii phy=-1 flags 0
row 133 makphy* from 0 at mii? by makphy on mii phy=-1 flags 0
row 134 nsphy* from 0 at mii? by nsphy on mii phy=-1 flags 0
row 135 nsphyter* from 0 at mii? by nsphyter on mii phy=-1 flags 0
row 136 rgephy* from 0 at mii? by rgephy on mii phy=-1 flags 0
row 137 rlphy* from 0 at mii? by rlphy on mii phy=-1 flags 0
row 138 smscphy* from 0 at mii? by smscphy on mii phy=-1 flags 0
row 139 ukphy* from 0 at mii? by ukphy on mii phy=-1 flags 0
row 140 scsibus* from 0 at scsi? by scsibus on scsi channel=-1 flags 0
row 141 atapibus* from 0 at atapi? by atapibus on atapi channel=-1 flags 0
row 142 sd* from 0 at scsibus? by sd_scsibus on scsibus target=-1 lun=-1 flags 0
row 143 sd* from 0 at atapibus? by sd_atapibus on atapibus drive=-1 flags 0
row 144 st* from 0 at scsibus? by st_scsibus on scsibus target=-1 lun=-1 flags 0
row 145 st* from 0 at atapibus? by st_atapibus on atapibus drive=-1 flags 0
row 146 cd* from 0 at scsibus? by cd_scsibus on scsibus target=-1 lun=-1 flags 0
row 147 cd* from 0 at atapibus? by cd_atapibus on atapibus drive=-1 flags 0
row 148 ch* from 0 at scsibus? by ch on scsibus target=-1 lun=-1 flags 0
row 149 ses* from 0 at scsibus? by ses on scsibus target=-1 lun=-1 flags 0
row 150 ss* from 0 at scsibus? by ss on scsibus target=-1 lun=-1 flags 0
row 151 uk* from 0 at scsibus? by uk_scsibus on scsibus target=-1 lun=-1 flags 0
row 152 uk* from 0 at atapibus? by uk_atapibus on atapibus drive=-1 flags 0
row 153 atabus* from 0 at ata? by atabus on ata channel=-1 flags 0
row 154 wd* from 0 at atabus? by wd on ata_hl drive=-1 flags 0
row 155 wd* from 0 at umass? by wd on ata_hl drive=-1 flags 0
row 156 ataraid0 at root by ataraid on root flags 0
row 157 audio* from 0 at audiobus? by audio on audiobus flags 0
row 158 spkr0 at pcppi? by spkr_pcppi on pcppi flags 0
row 159 spkr* from 1 at audio? by spkr_audio on audio flags 0
row 160 midi* from 0 at pcppi? by midi_pcppi on pcppi flags 0
row 161 midi* from 0 at midibus? by midi on midibus flags 0
row 162 radio* from 0 at radiodev? by radio on radiodev flags 0
row 163 video* from 0 at videobus? by video on videobus flags 0
row 164 hdaudio* from 0 at pci? by hdaudio_pci on pci dev=-1 function=-1 flags 0
row 165 hdafg* from 0 at hdaudiobus? by hdafg on hdaudiobus nid=-1 flags 0
row 166 iic* from 0 at i2cbus? by iic on i2cbus flags 0
row 167 spdmem* from 0 at iic? by spdmem_iic on iic addr=-1 size=-1 flags 0
row 168 sdtemp* from 0 at iic? by sdtemp on iic addr=-1 size=-1 flags 0
row 169 dbcool* from 0 at iic? by dbcool on iic addr=44 size=-1 flags 0
row 170 lmtemp* from 0 at iic? by lmtemp on iic addr=72 size=0 flags 0
row 171 ihidev* from 0 at iic? by ihidev on iic addr=-1 size=-1 flags 0
row 172 ims* from 0 at ihidev? by ims on ihidev reportid=-1 flags 0
row 173 imt* from 0 at ihidev? by imt on ihidev reportid=-1 flags 0
row 174 gpio* from 0 at gpiobus? by gpio on gpiobus flags 0
row 175 gpioow* from 0 at gpio? by gpioow on gpio offset=18 mask=3 flag=0 flags 0
row 176 onewire* from 0 at gpioow? by onewire on onewirebus flags 0
row 177 owtemp* from 0 at onewire? by owtemp on onewire flags 0
row 178 atppc* from 0 at isa? by atppc_isa on isa port=888 size=0 iomem=-1 iosiz=0 irq=7 drq=-1 drq2=-1 flags 0
row 179 ppbus* from 0 at atppc? by ppbus on parport flags 0
row 180 plip* from 0 at ppbus? by plip on ppbus flags 0
row 181 sdmmc* from 0 at sdhc? by sdmmc on sdmmcbus flags 0
row 182 sdmmc* from 0 at rtsx? by sdmmc on sdmmcbus flags 0
row 183 sbt* from 0 at sdmmc? by sbt on sdmmc flags 0
row 184 bwfm* from 0 at sdmmc? by bwfm_sdio on sdmmc flags 0
row 185 bwfm* from 0 at pci? by bwfm_pci on pci dev=-1 function=-1 flags 0
row 186 ieee1394if* from 0 at fwohci? by ieee1394if on fwbus flags 0
row 187 fwip* from 0 at ieee1394if? by fwip on ieee1394 euihi=-1 euilo=-1 flags 0
row 188 sbp* from 0 at ieee1394if? by sbp on ieee1394 euihi=-1 euilo=-1 flags 0
row 189 cpu* from 0 at mainbus? by cpu on cpubus apid=-1 flags 0
row 190 acpicpu* from 0 at cpu? by acpicpu on cpufeaturebus flags 0
row 191 coretemp* from 0 at cpu? by coretemp on cpufeaturebus flags 0
row 192 viac7temp* from 0 at cpu? by viac7temp on cpufeaturebus flags 0
row 193 vmt0 at cpu0 by vmt on cpufeaturebus flags 0
row 194 hyperv0 at cpu0 by hyperv on cpufeaturebus flags 0
row 195 ioapic* from 0 at mainbus? by ioapic on ioapicbus apid=-1 flags 0
row 196 ipmi0 at mainbus? by ipmi on ipmibus flags 0
row 197 acpi0 at mainbus0 by acpi on acpibus flags 0
row 198 acpiacad* from 0 at acpi? by acpiacad on acpinodebus flags 0
row 199 acpibat* from 0 at acpi? by acpibat on acpinodebus flags 0
row 200 acpibut* from 0 at acpi? by acpibut on acpinodebus flags 0
row 201 acpidalb* from 0 at acpi? by acpidalb on acpinodebus flags 0
row 202 acpiec* from 0 at acpi? by acpiec on acpinodebus flags 0
row 203 acpiecdt* from 0 at acpi? by acpiecdt on acpiecdtbus flags 0
row 204 acpifan* from 0 at acpi? by acpifan on acpinodebus flags 0
row 205 acpilid* from 0 at acpi? by acpilid on acpinodebus flags 0
row 206 acpismbus* from 0 at acpi? by acpismbus on acpinodebus flags 0
row 207 acpitz* from 0 at acpi? by acpitz on acpinodebus flags 0
row 208 acpiwdrt* from 0 at acpi? by acpiwdrt on acpiwdrtbus flags 0
row 209 acpivga* from 0 at acpi? by acpivga on acpinodebus flags 0
row 210 acpiout* from 0 at acpivga? by acpiout on acpioutbus flags 0
row 211 acpiwmi* from 0 at acpi? by acpiwmi on acpinodebus flags 0
row 212 wmidell* from 0 at acpiwmi? by wmidell on acpiwmibus flags 0
row 213 wmihp* from 0 at acpiwmi? by wmihp on acpiwmibus flags 0
row 214 thinkpad* from 0 at acpi? by thinkpad on acpinodebus flags 0
row 215 sony* from 0 at acpi? by sony_acpi on acpinodebus flags 0
row 216 aibs* from 0 at acpi? by aibs on acpinodebus flags 0
row 217 dwiic* from 0 at acpi? by dwiic on acpinodebus flags 0
row 218 qemufwcfg* from 0 at acpi? by qemufwcfg_acpi on acpinodebus flags 0
row 219 vmgenid* from 0 at acpi? by vmgenid on acpinodebus flags 0
row 220 pci* from 0 at mainbus? by pci on pcibus bus=-1 flags 0
row 221 pci* from 0 at pchb? by pci on pcibus bus=-1 flags 0
row 222 pci* from 0 at ppb? by pci on pcibus bus=-1 flags 0
row 223 pchb* from 0 at pci? by pchb on pci dev=-1 function=-1 flags 0
row 224 agp* from 0 at pchb? by agp on agpbus flags 0
row 225 ppb* from 0 at pci? by ppb on pci dev=-1 function=-1 flags 0
row 226 pcib* from 0 at pci? by pcib on pci dev=-1 function=-1 flags 0
row 227 ichlpcib* from 0 at pci? by ichlpcib on pci dev=-1 function=-1 flags 0
row 228 amdpcib* from 0 at pci? by amdpcib on pci dev=-1 function=-1 flags 0
row 229 piixpcib* from 0 at pci? by piixpcib on pci dev=-1 function=-1 flags 0
row 230 tco* from 0 at ichlpcib? by tco on tcoichbus flags 0
row 231 fwhrng* from 0 at ichlpcib? by fwhrng on fwhichbus flags 0
row 232 amdnb_misc* from 0 at pci? by amdnb_misc on pci dev=-1 function=-1 flags 0
row 233 amdtemp* from 0 at amdnb_misc? by amdtemp on amdnbbus flags 0
row 234 genfb* from 0 at pci? by genfb_pci on pci dev=-1 function=-1 flags 0
row 235 i915drmkms* from 0 at pci? by i915drmkms on pci dev=-1 function=-1 flags 0
row 236 intelfb* from 0 at intelfbbus? by intelfb on intelfbbus flags 0
row 237 radeon* from 0 at pci? by radeon on pci dev=-1 function=-1 flags 0
row 238 radeondrmkmsfb* from 0 at radeonfbbus? by radeondrmkmsfb on radeonfbbus flags 0
row 239 ahcisata* from 0 at pci? by ahcisata_pci on pci dev=-1 function=-1 flags 0
row 240 ahcisata* from 0 at jmide? by jmahci on jmide_hl flags 0
row 241 cmdide* from 0 at pci? by cmdide on pci dev=-1 function=-1 flags 0
row 242 ixpide* from 0 at pci? by ixpide on pci dev=-1 function=-1 flags 0
row 243 jmide* from 0 at pci? by jmide on pci dev=-1 function=-1 flags 0
row 244 mvsata* from 0 at pci? by mvsata_pci on pci dev=-1 function=-1 flags 0
row 245 pciide* from 0 at pci? by pciide_pci on pci dev=-1 function=-1 flags 0
row 246 piixide* from 0 at pci? by piixide on pci dev=-1 function=-1 flags 0
row 247 satalink* from 0 at pci? by satalink on pci dev=-1 function=-1 flags 0
row 248 siisata* from 0 at pci? by siisata_pci on pci dev=-1 function=-1 flags 0
row 249 siisata* from 0 at cardbus? by siisata_cardbus on cardbus function=-1 flags 0
row 250 viaide* from 0 at pci? by viaide on pci dev=-1 function=-1 flags 0
row 251 alc* from 0 at pci? by alc on pci dev=-1 function=-1 flags 0
row 252 aq* from 0 at pci? by aq on pci dev=-1 function=-1 flags 0
row 253 bge* from 0 at pci? by bge on pci dev=-1 function=-1 flags 0
row 254 bnx* from 0 at pci? by bnx on pci dev=-1 function=-1 flags 0
row 255 iavf* from 0 at pci? by iavf on pci dev=-1 function=-1 flags 0
row 256 iwi* from 0 at pci? by iwi on pci dev=-1 function=-1 flags 0
row 257 iwm* from 0 at pci? by iwm on pci dev=-1 function=-1 flags 0
row 258 iwn* from 0 at pci? by iwn on pci dev=-1 function=-1 flags 0
row 259 ixg* from 0 at pci? by ixg on pci dev=-1 function=-1 flags 0
row 260 ixl* from 0 at pci? by ixl on pci dev=-1 function=-1 flags 0
row 261 ixv* from 0 at pci? by ixv on pci dev=-1 function=-1 flags 0
row 262 mskc* from 0 at pci? by mskc on pci dev=-1 function=-1 flags 0
row 263 msk* from 0 at mskc? by msk on mskc flags 0
row 264 nfe* from 0 at pci? by nfe on pci dev=-1 function=-1 flags 0
row 265 pcn* from 0 at pci? by pcn on pci dev=-1 function=-1 flags 0
row 266 skc* from 0 at pci? by skc on pci dev=-1 function=-1 flags 0
row 267 sk* from 0 at skc? by sk on skc flags 0
row 268 vge* from 0 at pci? by vge on pci dev=-1 function=-1 flags 0
row 269 vmx* from 0 at pci? by vmx on pci dev=-1 function=-1 flags 0
row 270 vr* from 0 at pci? by vr on pci dev=-1 function=-1 flags 0
row 271 wm* from 0 at pci? by wm on pci dev=-1 function=-1 flags 0
row 272 wpi* from 0 at pci? by wpi on pci dev=-1 function=-1 flags 0
row 273 rtsx* from 0 at pci? by rtsx_pci on pci dev=-1 function=-1 flags 0
row 274 ichsmb* from 0 at pci? by ichsmb on pci dev=-1 function=-1 flags 0
row 275 piixpm* from 0 at pci? by piixpm on pci dev=-1 function=-1 flags 0
row 276 cbb* from 0 at pci? by cbb_pci on pci dev=-1 function=-1 flags 0
row 277 auich* from 0 at pci? by auich on pci dev=-1 function=-1 flags 0
row 278 auvia* from 0 at pci? by auvia on pci dev=-1 function=-1 flags 0
row 279 eap* from 0 at pci? by eap on pci dev=-1 function=-1 flags 0
row 280 emuxki* from 0 at pci? by emuxki on pci dev=-1 function=-1 flags 0
row 281 bktr* from 0 at pci? by bktr on pci dev=-1 function=-1 flags 0
row 282 puc* from 0 at pci? by puc on pci dev=-1 function=-1 flags 0
row 283 hifn* from 0 at pci? by hifn on pci dev=-1 function=-1 flags 0
row 284 qat* from 0 at pci? by qat on pci dev=-1 function=-1 flags 0
row 285 amdccp* from 0 at pci? by amdccp_pci on pci dev=-1 function=-1 flags 0
row 286 isa0 at mainbus? by isa on isabus flags 0
row 287 isa0 at pcib? by isa on isabus flags 0
row 288 isa0 at ichlpcib? by isa on isabus flags 0
row 289 isa0 at amdpcib? by isa on isabus flags 0
row 290 isa0 at piixpcib? by isa on isabus flags 0
row 291 sysbeep0 at pcppi? by sysbeep on pcppi flags 0
row 292 pcdisplay0 at isa? by pcdisplay on isa port=-1 size=0 iomem=-1 iosiz=0 irq=-1 drq=-1 drq2=-1 flags 0
row 293 we0 at isa? by we_isa on isa port=640 size=0 iomem=851968 iosiz=0 irq=9 drq=-1 drq2=-1 flags 0
row 294 we1 at isa? by we_isa on isa port=768 size=0 iomem=835584 iosiz=0 irq=10 drq=-1 drq2=-1 flags 0
row 295 cs0 at isa? by cs_isa on isa port=768 size=0 iomem=-1 iosiz=0 irq=-1 drq=-1 drq2=-1 flags 0
row 296 sb0 at isa? by sb_isa on isa port=544 size=0 iomem=-1 iosiz=0 irq=5 drq=1 drq2=5 flags 0
row 297 ast0 at isa? by ast on isa port=416 size=0 iomem=-1 iosiz=0 irq=5 drq=-1 drq2=-1 flags 0
row 298 pcic0 at isa? by pcic_isa on isa port=992 size=0 iomem=851968 iosiz=65536 irq=-1 drq=-1 drq2=-1 flags 0
row 299 itesio0 at isa? by itesio on isa port=46 size=0 iomem=-1 iosiz=0 irq=-1 drq=-1 drq2=-1 flags 0
row 300 wbsio* from 0 at isa? by wbsio on isa port=46 size=0 iomem=-1 iosiz=0 irq=-1 drq=-1 drq2=-1 flags 0
row 301 wbsio* from 0 at isa? by wbsio on isa port=78 size=0 iomem=-1 iosiz=0 irq=-1 drq=-1 drq2=-1 flags 0
row 302 aps0 at isa? by aps on isa port=5632 size=0 iomem=-1 iosiz=0 irq=-1 drq=-1 drq2=-1 flags 0
row 303 virtio* from 0 at pci? by virtio_pci on pci dev=-1 function=-1 flags 0
row 304 virtio* from 0 at acpi? by virtio_acpi on acpinodebus flags 0
row 305 vioif* from 0 at virtio? by vioif on virtio flags 0
row 306 viomb* from 0 at virtio? by viomb on virtio flags 0
row 307 viornd* from 0 at virtio? by viornd on virtio flags 0
row 308 vioscsi* from 0 at virtio? by vioscsi on virtio flags 0
row 309 viocon* from 0 at virtio? by viocon on virtio flags 0
row 310 vio9p* from 0 at virtio? by vio9p_virtio on virtio flags 0
row 311 bthub* from 0 at ubt? by bthub on btbus flags 0
row 312 bthidev* from 0 at bthub? by bthidev on bthub flags 0
row 313 btkbd* from 0 at bthidev? by btkbd on bthidev reportid=-1 flags 0
row 314 btms* from 0 at bthidev? by btms on bthidev reportid=-1 flags 0
row 315 btsco* from 0 at bthub? by btsco on bthub flags 0
row 316 usb* from 0 at usbus? by usb on usbus flags 0
row 317 uhub* from 0 at usb? by uroothub on usbroothubif flags 0
row 318 uhub* from 0 at uhub? by uhub on usbdevif port=-1 configuration=-1 vendor=-1 product=-1 release=-1 flags 0
row 319 uhidev* from 0 at uhub? by uhidev on usbifif port=-1 configuration=-1 interface=-1 vendor=-1 product=-1 release=-1 flags 0
row 320 uhid* from 0 at uhidev? by uhid on uhidbus reportid=-1 flags 0
row 321 ukbd* from 0 at uhidev? by ukbd on uhidbus reportid=-1 flags 0
row 322 ums* from 0 at uhidev? by ums on uhidbus reportid=-1 flags 0
row 323 umass* from 0 at uhub? by umass on usbifif port=-1 configuration=-1 interface=-1 vendor=-1 product=-1 release=-1 flags 0
row 324 uaudio* from 0 at uhub? by uaudio on usbifif port=-1 configuration=-1 interface=-1 vendor=-1 product=-1 release=-1 flags 0
row 325 umidi* from 0 at uhub? by umidi on usbifif port=-1 configuration=-1 interface=-1 vendor=-1 product=-1 release=-1 flags 0
row 326 uvideo* from 0 at uhub? by uvideo on usbifif port=-1 configuration=-1 interface=-1 vendor=-1 product=-1 release=-1 flags 0
row 327 ucom* from 0 at ucombus? by ucom on ucombus portno=-1 flags 0
row 328 umodem* from 0 at uhub? by umodem on usbifif port=-1 configuration=-1 interface=-1 vendor=-1 product=-1 release=-1 flags 0
row 329 uftdi* from 0 at uhub? by uftdi on usbifif port=-1 configuration=-1 interface=-1 vendor=-1 product=-1 release=-1 flags 0
row 330 uplcom* from 0 at uhub? by uplcom on usbdevif port=-1 configuration=-1 vendor=-1 product=-1 release=-1 flags 0
row 331 uchcom* from 0 at uhub? by uchcom on usbdevif port=-1 configuration=-1 vendor=-1 product=-1 release=-1 flags 0
row 332 ulpt* from 0 at uhub? by ulpt on usbifif port=-1 configuration=-1 interface=-1 vendor=-1 product=-1 release=-1 flags 0
row 333 aue* from 0 at uhub? by aue on usbdevif port=-1 configuration=-1 vendor=-1 product=-1 release=-1 flags 0
row 334 axe* from 0 at uhub? by axe on usbdevif port=-1 configuration=-1 vendor=-1 product=-1 release=-1 flags 0
row 335 axen* from 0 at uhub? by axen on usbdevif port=-1 configuration=-1 vendor=-1 product=-1 release=-1 flags 0
row 336 cdce* from 0 at uhub? by cdce on usbifif port=-1 configuration=-1 interface=-1 vendor=-1 product=-1 release=-1 flags 0
row 337 ure* from 0 at uhub? by ure on usbdevif port=-1 configuration=-1 vendor=-1 product=-1 release=-1 flags 0
row 338 run* from 0 at uhub? by run on usbdevif port=-1 configuration=-1 vendor=-1 product=-1 release=-1 flags 0
row 339 urtwn* from 0 at uhub? by urtwn on usbdevif port=-1 configuration=-1 vendor=-1 product=-1 release=-1 flags 0
row 340 ubt* from 0 at uhub? by ubt on usbdevif port=-1 configuration=-1 vendor=-1 product=-1 release=-1 flags 0
row 341 ugen* from 0 at uhub? by ugen_dev on usbdevif port=-1 configuration=-1 vendor=-1 product=-1 release=-1 flags 0
row 342 ugen* from 0 at usbifif? by ugenif on usbifif port=-1 configuration=-1 interface=-1 vendor=-1 product=-1 release=-1 flags 0
row 343 cardslot* from 0 at cbb? by cardslot on pcmciaslot slot=-1 flags 0
row 344 cardbus* from 0 at cardslot? by cardbus on cbbus slot=-1 flags 0
row 345 pcmcia* from 0 at cardslot? by pcmcia on pcmciabus controller=-1 socket=-1 flags 0
row 346 pcmcia* from 0 at pcic? by pcmcia on pcmciabus controller=-1 socket=-1 flags 0
row 347 vmbus* from 0 at acpi? by vmbus_acpi on acpinodebus flags 0
row 348 hvn* from 0 at vmbus? by hvn on hypervvmbus flags 0
row 349 storvsc* from 0 at vmbus? by storvsc on hypervvmbus flags 0
row 350 hvkbd* from 0 at vmbus? by hvkbd on hypervvmbus flags 0
row 351 hvheartbeat* from 0 at vmbus? by hvheartbeat on hypervvmbus flags 0
row 352 hvshutdown* from 0 at vmbus? by hvshutdown on hypervvmbus flags 0
row 353 hvtimesync* from 0 at vmbus? by hvtimesync on hypervvmbus flags 0
row 354 mainbus0 at root by mainbus on root flags 0
pseudo clockctl 1
pseudo ksyms 1
pseudo loop 1
pseudo crypto 1
pseudo swcrypto 1
pseudo ccd 1
pseudo cgd 1
pseudo raid 1
pseudo fss 1
pseudo md 1
pseudo vnd 1
pseudo bpfilter 1
pseudo accf_data 1
pseudo accf_http 1
pseudo carp 1
pseudo npf 1
pseudo ppp 1
pseudo pppoe 1
pseudo sl 1
pseudo srt 1
pseudo tun 1
pseudo tap 1
pseudo gre 1
pseudo gif 1
pseudo stf 1
pseudo vlan 1
pseudo bridge 1
pseudo agr 1
pseudo l2tp 1
pseudo mpls 1
pseudo pty 1
pseudo sequencer 1
pseudo bio 1
pseudo cpuctl 1
pseudo drvctl 1
pseudo putter 1
pseudo swwdog 1
pseudo wsmux 4
options EXEC_SCRIPT
options COREDUMP
options AIO
options MQUEUE
options SEMAPHORES
options PTRACE
options BUFQ_FCFS
options BUFQ_DISKSORT
options EXEC_ELF64
options MTRR
options MULTIPROCESSOR
options CHILD_MAX=1024
options OPEN_MAX=1024
options USER_LDT
options INCLUDE_CONFIG_FILE
options SPECTRE_V2_GCC_MITIGATION
options SVS
options KTRACE
options SYSVMSG
options SYSVSEM
options SYSVSHM
options MODULAR
options MODULAR_DEFAULT_AUTOLOAD
options RTC_OFFSET=0
options NTP
options PIPE_SOCKETPAIR
options VNODE_LOCKDEBUG=0
options DDB
options DDB_HISTORY_SIZE=512
options DDB_ONPANIC=1
options DDB_COMMANDONENTER=bt
options USERCONF
options SYSCTL_INCLUDE_DESCR
options COMPAT_15
options COMPAT_16
options COMPAT_20
options COMPAT_30
options COMPAT_40
options COMPAT_50
options COMPAT_60
options COMPAT_70
options COMPAT_80
options COMPAT_90
options COMPAT_43
options COMPAT_LINUX
options COMPAT_LINUX32
options COMPAT_NETBSD32
options EXEC_ELF32
options QUOTA
options QUOTA2
options WAPBL
options FFS_EI
options UFS_DIRHASH
options UFS_EXTATTR
options NFSSERVER
options EXT2FS_SYSTEM_FLAGS
options NFS_BOOT_DHCP
options GATEWAY
options INET
options INET6
options IPSEC
options MROUTING
options PIM
options MPLS
options NETATALK
options PPP_BSDCOMP
options PPP_DEFLATE
options PPP_FILTER
options TCP_DEBUG
options ALTQ
options ALTQ_HFSC
options ALTQ_CBQ
options ALTQ_RED
options ACPI_SCANPCI
options ACPIVERBOSE
options PCIVERBOSE
options USBVERBOSE
options MIIVERBOSE
options SCSIVERBOSE
options PCI_NETBSD_CONFIGURE
options PCI_BUS_FIXUP
options PCI_ADDR_FIXUP
options WSEMUL_VT100
options WSDISPLAY_COMPAT_PCVT
options WSDISPLAY_COMPAT_SYSCONS
options WSDISPLAY_COMPAT_USL
options WSDISPLAY_COMPAT_RAWKBD
options WSDISPLAY_DEFAULTSCREENS=4
options WSDISPLAY_SCROLLSUPPORT
options FONT_BOLD8x16
options VGA_POST
options RAID_AUTOCONFIG
options MEMORY_DISK_HOOKS
options MEMORY_DISK_DYNAMIC
makeoptions CPUFLAGS=-mno-red-zone
makeoptions TEXTADDR=0xffffffff80200000
makeoptions SPECTRE_V2_GCC_MITIGATION=1
makeoptions DEBUG=-g
makeoptions COPTS=-O2 -fno-omit-frame-pointer
makeoptions CPUFLAGS+=-mcmodel=kernel
file-system FFS
file-system MFS
file-system EXT2FS
file-system LFS
file-system NFS
file-system CD9660
file-system UDF
file-system MSDOSFS
file-system NTFS
file-system TMPFS
file-system PTYFS
file-system KERNFS
file-system PROCFS
file-system FDESC
file-system NULLFS
file-system OVERLAY
file-system UNION
file-system PUFFS
history 2
0.0 found root on mb: mainbus0 row 354
0.0 found mainbus0 on cpu0: cpu0 row 189
0.0 found cpu0 on p0: acpicpu0 row 190
0.0 found cpu0 on t0: coretemp0 row 191
0.0 scan cpu0: done
0.0 found mainbus0 on cpu1: cpu1 row 189
0.0 found cpu1 on p1: acpicpu1 row 190
0.0 found cpu1 on t1: coretemp1 row 191
0.0 scan cpu1: done
0.0 found mainbus0 on cpu2: cpu2 row 189
0.0 found cpu2 on p2: acpicpu2 row 190
0.0 found cpu2 on t2: coretemp2 row 191
0.0 scan cpu2: done
0.0 found mainbus0 on cpu3: cpu3 row 189
0.0 found cpu3 on p3: acpicpu3 row 190
0.0 found cpu3 on t3: coretemp3 row 191
0.0 scan cpu3: done
0.0 found mainbus0 on cpu4: cpu4 row 189
0.0 found cpu4 on p4: acpicpu4 row 190
0.0 found cpu4 on t4: coretemp4 row 191
0.0 scan cpu4: done
0.0 found mainbus0 on cpu5: cpu5 row 189
0.0 found cpu5 on p5: acpicpu5 row 190
0.0 found cpu5 on t5: coretemp5 row 191
0.0 scan cpu5: done
0.0 found mainbus0 on cpu6: cpu6 row 189
0.0 found cpu6 on p6: acpicpu6 row 190
0.0 found cpu6 on t6: coretemp6 row 191
0.0 scan cpu6: done
0.0 found mainbus0 on cpu7: cpu7 row 189
0.0 found cpu7 on p7: acpicpu7 row 190
0.0 found cpu7 on t7: coretemp7 row 191
0.0 scan cpu7: done
0.0 found mainbus0 on ioa0: ioapic0 row 195
0.0 found mainbus0 on ioa1: ioapic1 row 195
0.0 found mainbus0 on acpi: acpi0 row 197
0.0 found acpi0 on pwrb: acpibut0 row 200
0.0 found acpi0 on tmr: attimer1 row 14
0.0 found acpi0 on tpm: tpm0 row 110
0.0 found acpi0 on tz0: acpitz0 row 207
0.0 found acpi0 on ipi: not configured
0.0 found acpi0 on res0: not configured
0.0 found acpi0 on res1: not configured
0.0 found acpi0 on hpt: hpet0 row 34
0.0 found acpi0 on wdrt: acpiwdrt0 row 208
0.0 scan acpi0: done
0.0 found mainbus0 on bmc: ipmi0 row 196
0.0 found mainbus0 on pb0: pci0 row 220
0.0 found pci0 on hb: pchb0 row 223
0.0 scan pchb0: done
0.0 found pci0 on rp1: ppb0 row 225
0.0 found ppb0 on pb1: pci1 row 222
0.0 found pci1 on sas: mpii0 row 68
0.0 found mpii0 on sasb: scsibus0 row 140
0.0 scan mpii0: done
0.0 scan pci1: done
0.0 scan ppb0: done
0.0 found pci0 on rp2: ppb1 row 225
0.0 found ppb1 on pb2: pci2 row 222
0.0 found pci2 on up: ppb2 row 225
0.0 found ppb2 on pb3: pci3 row 222
0.0 found pci3 on dn0: ppb3 row 225
0.0 found ppb3 on pb4: pci4 row 222
0.0 found pci4 on nv0: nvme0 row 56
0.0 found nvme0 on ns0: ld0 row 44
0.0 scan nvme0: done
0.0 scan pci4: done
0.0 scan ppb3: done
0.0 found pci3 on dn1: ppb4 row 225
0.0 found ppb4 on pb5: pci5 row 222
0.0 found pci5 on nv1: nvme1 row 56
0.0 found nvme1 on ns1: ld1 row 44
0.0 found nvme1 on ns2: ld2 row 44
0.0 scan nvme1: done
0.0 scan pci5: done
0.0 scan ppb4: done
0.0 scan pci3: done
0.0 scan ppb2: done
0.0 scan pci2: done
0.0 scan ppb1: done
0.0 found pci0 on rp3: ppb5 row 225
0.0 found ppb5 on pb6: pci6 row 222
0.0 found pci6 on xg0: ixg0 row 259
0.0 found pci6 on xg1: ixg1 row 259
0.0 scan pci6: done
0.0 scan ppb5: done
0.0 found pci0 on dma: not configured
0.0 found pci0 on vtd: not configured
0.0 found pci0 on xh: xhci0 row 105
0.0 found xhci0 on ub0: usb0 row 316
0.0 found xhci0 on ub1: usb1 row 316
0.0 scan xhci0: done
0.0 found pci0 on me0: not configured
0.0 found pci0 on me1: not configured
0.0 found pci0 on eh0: ehci0 row 103
0.0 found ehci0 on ub2: usb2 row 316
0.0 scan ehci0: done
0.0 found pci0 on rp4: ppb6 row 225
0.0 found ppb6 on pb7: pci7 row 222
0.0 found pci7 on asb: ppb7 row 225
0.0 found ppb7 on pb8: pci8 row 222
0.0 found pci8 on vga: vga1 row 39
0.0 found vga1 on scr: wsdisplay0 row 0
0.0 scan vga1: done
0.0 scan pci8: done
0.0 scan ppb7: done
0.0 scan pci7: done
0.0 scan ppb6: done
0.0 found pci0 on rp5: ppb8 row 225
0.0 found ppb8 on pb9: pci9 row 222
0.0 found pci9 on lan0: wm0 row 271
0.0 found wm0 on phy0: ihphy0 row 130
0.0 scan wm0: done
0.0 found pci9 on lan1: wm1 row 271
0.0 found wm1 on phy1: ihphy1 row 130
0.0 scan wm1: done
0.0 scan pci9: done
0.0 scan ppb8: done
0.0 found pci0 on rp6: ppb9 row 225
0.0 found ppb9 on pb10: pci10 row 222
0.0 scan pci10: done
0.0 scan ppb9: done
0.0 found pci0 on lpc: ichlpcib0 row 227
0.0 found pci0 on sata: ahcisata0 row 239
0.0 found ahcisata0 on ch0: atabus0 row 153
0.0 found atabus0 on hd0: wd0 row 154
0.0 scan atabus0: done
0.0 found ahcisata0 on ch1: atabus1 row 153
0.0 found atabus1 on hd1: wd1 row 154
0.0 scan atabus1: done
0.0 found ahcisata0 on ch2: atabus2 row 153
0.0 found atabus2 on hd2: wd2 row 154
0.0 scan atabus2: done
0.0 found ahcisata0 on ch3: atabus3 row 153
0.0 found atabus3 on hd3: wd3 row 154
0.0 scan atabus3: done
0.0 found ahcisata0 on ch4: atabus4 row 153
0.0 found atabus4 on dvdb: atapibus0 row 141
0.0 found atapibus0 on dvd: cd0 row 147
0.0 scan atapibus0: done
0.0 scan atabus4: done
0.0 found ahcisata0 on ch5: atabus5 row 153
0.0 scan atabus5: done
0.0 scan ahcisata0: done
0.0 found pci0 on smb: ichsmb0 row 274
0.0 found ichsmb0 on i2c: iic0 row 166
0.0 found iic0 on spd0: spdmem0 row 167
0.0 found iic0 on spd1: spdmem1 row 167
0.0 found iic0 on spd2: spdmem2 row 167
0.0 found iic0 on spd3: spdmem3 row 167
0.0 found iic0 on dts0: sdtemp0 row 168
0.0 found iic0 on dts1: sdtemp1 row 168
0.0 found iic0 on clk: not configured
0.0 scan iic0: done
0.0 scan ichsmb0: done
0.0 found pci0 on thr: not configured
0.0 scan pci0: done
0.0 found ichlpcib0 on isa: isa0 row 288
0.0 found isa0 on pit: attimer0 row 13
0.0 found isa0 on ppi: pcppi0 row 15
0.0 found pcppi0 on tone: spkr0 row 158
0.0 found pcppi0 on tune: midi0 row 160
0.0 found pcppi0 on beep: sysbeep0 row 291
0.0 scan pcppi0: done
0.0 found isa0 on kbc: pckbc0 row 17
0.0 found pckbc0 on kbck: pckbd0 row 11
0.0 found pckbd0 on kbdw: wskbd0 row 3
0.0 scan pckbd0: done
0.0 found pckbc0 on kbcm: not configured
0.0 scan pckbc0: done
0.0 found isa0 on u0: com0 row 19
0.0 found isa0 on u1: com1 row 20
0.0 found isa0 on lp: lpt0 row 28
0.0 found isa0 on sio: wbsio0 row 300
0.0 found wbsio0 on hwm: lm1 row 116
0.0 found wbsio0 on siog: gpio0 row 174
0.0 found gpio0 on ow: gpioow0 row 175
0.0 found gpioow0 on owb: onewire0 row 176
0.0 found onewire0 on owt: owtemp0 row 177
0.0 scan onewire0: done
0.0 scan gpioow0: done
0.0 scan gpio0: done
0.0 scan wbsio0: done
0.0 scan isa0: done
0.0 found ichlpcib0 on tco: tco0 row 230
0.0 scan ichlpcib0: done
0.0 scan mainbus0: done
0.0 found root on ar: ataraid0 row 156
0.0 scan ataraid0: done
0.0 scan root: done
0.0 interrupts
0.0 found scsibus0 on shelf0: sd0 row 142
0.0 found scsibus0 on shelf1: sd1 row 142
0.0 found scsibus0 on shelf2: sd2 row 142
0.0 found scsibus0 on shelf3: sd3 row 142
0.0 found scsibus0 on shelf4: sd4 row 142
0.0 found scsibus0 on shelf6: sd5 row 142
0.0 found scsibus0 on box: ses0 row 149
0.0 found scsibus0 on ctl: uk0 row 151
0.0 scan scsibus0: done
0.0 found usb0 on rh0: uhub0 row 317
0.0 found uhub0 on hubA: uhub1 row 318
0.0 found uhub1 on hubB: uhub2 row 318
0.0 found uhub2 on ups: ugen0 row 341
0.0 found uhub2 on stick: umass0 row 323
0.0 found umass0 on stickb: scsibus1 row 140
0.0 found scsibus1 on stickd: sd6 row 142
0.0 scan scsibus1: done
0.0 scan umass0: done
0.0 found uhub2 on ser: uftdi0 row 329
0.0 found uftdi0 on serp: ucom0 row 327
0.0 scan uftdi0: done
0.0 scan uhub2: done
0.0 found uhub1 on kbA: uhidev0 row 319
0.0 found uhidev0 on kbr: ukbd0 row 321
0.0 found ukbd0 on kbw: wskbd1 row 5
0.0 scan ukbd0: done
0.0 scan uhidev0: done
0.0 found uhub1 on kbB: uhidev1 row 319
0.0 found uhidev1 on kbx: uhid0 row 320
0.0 scan uhidev1: done
0.0 scan uhub1: done
0.0 scan uhub0: done
0.0 scan usb0: done
0.0 found usb1 on rh1: uhub3 row 317
0.0 found uhub3 on bkp: umass1 row 323
0.0 found umass1 on bkpb: scsibus2 row 140
0.0 found scsibus2 on bkpd: sd7 row 142
0.0 found scsibus2 on bkps: ses1 row 149
0.0 scan scsibus2: done
0.0 scan umass1: done
0.0 scan uhub3: done
0.0 scan usb1: done
0.0 found usb2 on rh2: uhub4 row 317
0.0 found uhub4 on rmh: uhub5 row 318
0.0 found uhub5 on vk: uhidev2 row 319
0.0 found uhidev2 on vkr: ukbd1 row 321
0.0 found ukbd1 on vkw: wskbd2 row 5
0.0 scan ukbd1: done
0.0 scan uhidev2: done
0.0 found uhub5 on vm: uhidev3 row 319
0.0 found uhidev3 on vmr: ums0 row 322
0.0 found ums0 on vmw: wsmouse0 row 8
0.0 scan ums0: done
0.0 scan uhidev3: done
0.0 found uhub5 on vcd: umass2 row 323
0.0 found umass2 on vcda: atapibus1 row 141
0.0 found atapibus1 on vcdd: cd1 row 147
0.0 scan atapibus1: done
0.0 scan umass2: done
0.0 scan uhub5: done
0.0 scan uhub4: done
0.0 scan usb2: done
0.0 final ataraid0: 1 on vol0: ld3 row 43
0.0 final ataraid0: 1 on vol1: ld4 row 43
0.0 final ataraid0: 1 on vol2: not configured
0.0 final ataraid0: 0
0.0 end
tree
mainbus0 at root row 354
  cpu0 at mainbus0 row 189
    acpicpu0 at cpu0 row 190
    coretemp0 at cpu0 row 191
  cpu1 at mainbus0 row 189
    acpicpu1 at cpu1 row 190
    coretemp1 at cpu1 row 191
  cpu2 at mainbus0 row 189
    acpicpu2 at cpu2 row 190
    coretemp2 at cpu2 row 191
  cpu3 at mainbus0 row 189
    acpicpu3 at cpu3 row 190
    coretemp3 at cpu3 row 191
  cpu4 at mainbus0 row 189
    acpicpu4 at cpu4 row 190
    coretemp4 at cpu4 row 191
  cpu5 at mainbus0 row 189
    acpicpu5 at cpu5 row 190
    coretemp5 at cpu5 row 191
  cpu6 at mainbus0 row 189
    acpicpu6 at cpu6 row 190
    coretemp6 at cpu6 row 191
  cpu7 at mainbus0 row 189
    acpicpu7 at cpu7 row 190
    coretemp7 at cpu7 row 191
  ioapic0 at mainbus0 row 195
  ioapic1 at mainbus0 row 195
  acpi0 at mainbus0 row 197
    acpibut0 at acpi0 row 200
    attimer1 at acpi0 row 14
    tpm0 at acpi0 row 110
    acpitz0 at acpi0 row 207
    hpet0 at acpi0 row 34
    acpiwdrt0 at acpi0 row 208
  ipmi0 at mainbus0 row 196
  pci0 at mainbus0 row 220
    pchb0 at pci0 row 223
    ppb0 at pci0 row 225
      pci1 at ppb0 row 222
        mpii0 at pci1 row 68
          scsibus0 at mpii0 row 140
            sd0 at scsibus0 row 142
            sd1 at scsibus0 row 142
            sd2 at scsibus0 row 142
            sd3 at scsibus0 row 142
            sd4 at scsibus0 row 142
            sd5 at scsibus0 row 142
            ses0 at scsibus0 row 149
            uk0 at scsibus0 row 151
    ppb1 at pci0 row 225
      pci2 at ppb1 row 222
        ppb2 at pci2 row 225
          pci3 at ppb2 row 222
            ppb3 at pci3 row 225
              pci4 at ppb3 row 222
                nvme0 at pci4 row 56
                  ld0 at nvme0 row 44
            ppb4 at pci3 row 225
              pci5 at ppb4 row 222
                nvme1 at pci5 row 56
                  ld1 at nvme1 row 44
                  ld2 at nvme1 row 44
    ppb5 at pci0 row 225
      pci6 at ppb5 row 222
        ixg0 at pci6 row 259
        ixg1 at pci6 row 259
    xhci0 at pci0 row 105
      usb0 at xhci0 row 316
        uhub0 at usb0 row 317
          uhub1 at uhub0 row 318
            uhub2 at uhub1 row 318
              ugen0 at uhub2 row 341
              umass0 at uhub2 row 323
                scsibus1 at umass0 row 140
                  sd6 at scsibus1 row 142
              uftdi0 at uhub2 row 329
                ucom0 at uftdi0 row 327
            uhidev0 at uhub1 row 319
              ukbd0 at uhidev0 row 321
                wskbd1 at ukbd0 row 5
            uhidev1 at uhub1 row 319
              uhid0 at uhidev1 row 320
      usb1 at xhci0 row 316
        uhub3 at usb1 row 317
          umass1 at uhub3 row 323
            scsibus2 at umass1 row 140
              sd7 at scsibus2 row 142
              ses1 at scsibus2 row 149
    ehci0 at pci0 row 103
      usb2 at ehci0 row 316
        uhub4 at usb2 row 317
          uhub5 at uhub4 row 318
            uhidev2 at uhub5 row 319
              ukbd1 at uhidev2 row 321
                wskbd2 at ukbd1 row 5
            uhidev3 at uhub5 row 319
              ums0 at uhidev3 row 322
                wsmouse0 at ums0 row 8
            umass2 at uhub5 row 323
              atapibus1 at umass2 row 141
                cd1 at atapibus1 row 147
    ppb6 at pci0 row 225
      pci7 at ppb6 row 222
        ppb7 at pci7 row 225
          pci8 at ppb7 row 222
            vga1 at pci8 row 39
              wsdisplay0 at vga1 row 0
    ppb8 at pci0 row 225
      pci9 at ppb8 row 222
        wm0 at pci9 row 271
          ihphy0 at wm0 row 130
        wm1 at pci9 row 271
          ihphy1 at wm1 row 130
    ppb9 at pci0 row 225
      pci10 at ppb9 row 222
    ichlpcib0 at pci0 row 227
      isa0 at ichlpcib0 row 288
        attimer0 at isa0 row 13
        pcppi0 at isa0 row 15
          spkr0 at pcppi0 row 158
          midi0 at pcppi0 row 160
          sysbeep0 at pcppi0 row 291
        pckbc0 at isa0 row 17
          pckbd0 at pckbc0 row 11
            wskbd0 at pckbd0 row 3
        com0 at isa0 row 19
        com1 at isa0 row 20
        lpt0 at isa0 row 28
        wbsio0 at isa0 row 300
          lm1 at wbsio0 row 116
          gpio0 at wbsio0 row 174
            gpioow0 at gpio0 row 175
              onewire0 at gpioow0 row 176
                owtemp0 at onewire0 row 177
      tco0 at ichlpcib0 row 230
    ahcisata0 at pci0 row 239
      atabus0 at ahcisata0 row 153
        wd0 at atabus0 row 154
      atabus1 at ahcisata0 row 153
        wd1 at atabus1 row 154
      atabus2 at ahcisata0 row 153
        wd2 at atabus2 row 154
      atabus3 at ahcisata0 row 153
        wd3 at atabus3 row 154
      atabus4 at ahcisata0 row 153
        atapibus0 at atabus4 row 141
          cd0 at atapibus0 row 147
      atabus5 at ahcisata0 row 153
    ichsmb0 at pci0 row 274
      iic0 at ichsmb0 row 166
        spdmem0 at iic0 row 167
        spdmem1 at iic0 row 167
        spdmem2 at iic0 row 167
        spdmem3 at iic0 row 167
        sdtemp0 at iic0 row 168
        sdtemp1 at iic0 row 168
ataraid0 at root row 156
  ld3 at ataraid0 row 43
  ld4 at ataraid0 row 43
